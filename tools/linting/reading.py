"""Reads JSON as the program does, and finds the places of what was read."""
import bisect
import json
import re

from linting.findings import NOT_JSON, Finding
from linting.mending import MOST_NESTED, Mender, Mended

LEAST_INTEGER, MOST_INTEGER = -(2**63), 2**64 - 1
SPACE = re.compile(r"[ \t\r\n]*")
LINE_END = re.compile(r"\r\n?|\n")
HALF = re.compile(r"\\u[dD][89a-fA-F]")


class Odd:
    """A number that is no whole one of 64 bits."""

    def __init__(self, text):
        self.text = text


class Twice(dict):
    """An object in which keys stand twice: those keys."""

    twice = ()


class Strange(Exception):
    """The text is read by Python and not by the program."""


def integer(text):
    number = int(text) if len(text) < 22 else MOST_INTEGER + 1
    if text == "-0" or not LEAST_INTEGER <= number <= MOST_INTEGER:
        return fraction(text)
    return number


def fraction(text):
    if abs(float(text)) == float("inf"):
        raise Strange
    return Odd(text)


def constant(text):
    raise Strange


def pairs(found):
    made = dict(found)
    if len(made) == len(found):
        return made
    seen, twice = set(), {}
    for key, _ in found:
        if key in seen:
            twice[key] = True
        seen.add(key)
    made = Twice(made)
    made.twice = list(twice)
    return made


DECODER = json.JSONDecoder(parse_int=integer, parse_float=fraction, parse_constant=constant, object_pairs_hook=pairs)
SKIPPING = json.JSONDecoder(parse_int=str, parse_float=str, parse_constant=str)


def nested(thing):
    """How deep the lists and objects of a thing lie in one another."""
    depth, level = 0, [thing]
    while level:
        level = [it for it in level if isinstance(it, (list, dict))]
        depth += bool(level)
        level = [inner for it in level for inner in (it.values() if isinstance(it, dict) else it) if isinstance(inner, (list, dict))]
    return depth


def plainly(text):
    """What the text says, where it is JSON to the program; else Strange."""
    try:
        read = DECODER.decode(text)
    except (ValueError, RecursionError):
        raise Strange from None
    if nested(read) > MOST_NESTED:
        raise Strange
    return read


class Text:
    """A text, what was read in it, and what of it isn't JSON.

    `is_read` says whether there is a `document`; `is_guessed`, whether a value in it was guessed.
    """

    def __init__(self, text):
        self.text, self.found, self.document, self.is_read, self.is_guessed = text, [], None, False, False
        self.lines = [0] + [it.end() for it in LINE_END.finditer(text)]
        self.mended = Mended([(0, text)])
        self.read()

    def read(self):
        try:
            if HALF.search(self.text):
                raise Strange
            self.document, self.is_read = plainly(self.text), True
            return
        except Strange:
            pass
        mender = Mender(self.text)
        mended, is_whole = mender.mended()
        self.found, self.is_guessed = mender.found, mender.is_guessed
        if not is_whole:
            return
        try:
            self.document, self.is_read, self.mended = plainly(mended.text), True, mended
        except Strange:
            if not self.found:
                self.found.append(self.told_by_python())

    def told_by_python(self):
        """What Python's reader tells, where lint found nothing itself."""
        try:
            json.loads(self.text)
        except ValueError as error:
            return Finding(NOT_JSON, f"this is no JSON: {getattr(error, 'msg', error)}", offset=getattr(error, "pos", 0))
        return Finding(NOT_JSON, "this is no JSON that the program reads", offset=0)

    def line_and_column(self, offset):
        """The line and the column of an offset in the text as it was, both counted from 1."""
        line = bisect.bisect_right(self.lines, offset)
        return line, offset - self.lines[line - 1] + 1

    def place(self, findings):
        """Sets the line and column of each finding."""
        paths = [it.path for it in findings if it.offset is None]
        found = places(self.mended.text, paths) if self.is_read else {}
        for it in findings:
            offset = it.offset
            if offset is None:
                path = it.path
                while path and path not in found:
                    path = path[:-1]
                key, value, _ = found.get(path, (None, 0, []))
                offset = key if it.is_key and path == it.path and key is not None else value
                offset = self.mended.offset(offset)
            it.line, it.column = self.line_and_column(offset)

    def lines_of_keys(self, paths):
        """For each path the lines in which its key stands, of which there may be several."""
        found = places(self.mended.text, paths)
        return [[self.line_and_column(self.mended.offset(it))[0] for it in found[path][2]] for path in paths]


def places(text, paths):
    """For each path that is there: the offset of its key (None in a list), that of its value, and those of all keys like it."""
    sought = {}
    for path in paths:
        node = sought
        for part in path:
            node = node.setdefault(part, {})
    found = {}

    def look(at, node, path):
        if not node:
            return
        if text[at] == "{":
            entries = {}
            for key, key_at, value_at in members(text, at):
                if key in node:
                    entries.setdefault(key, []).append((key_at, value_at))
            for key, places_of_key in entries.items():
                key_at, value_at = places_of_key[-1]
                found[(*path, key)] = (key_at, value_at, [it for it, _ in places_of_key])
                look(value_at, node[key], (*path, key))
        elif text[at] == "[":
            most = max((it for it in node if isinstance(it, int)), default=-1)
            for index, value_at in items(text, at, most):
                if index in node:
                    found[(*path, index)] = (None, value_at, [])
                    look(value_at, node[index], (*path, index))

    top = SPACE.match(text, 0).end()
    found[()] = (None, top, [])
    look(top, sought, ())
    return found


def members(text, at):
    """The keys of the object that begins here, each with its offset and that of its value."""
    at = SPACE.match(text, at + 1).end()
    while text[at] != "}":
        key, end = json.decoder.scanstring(text, at + 1)
        value_at = SPACE.match(text, SPACE.match(text, end).end() + 1).end()
        yield key, at, value_at
        at = behind(text, value_at)


def items(text, at, most):
    """The items of the list that begins here up to one's index, each with its offset."""
    at, index = SPACE.match(text, at + 1).end(), 0
    while text[at] != "]" and index <= most:
        yield index, at
        at, index = behind(text, at), index + 1


def behind(text, at):
    """Where the next entry or the closing bracket stands behind a value."""
    at = SPACE.match(text, SKIPPING.scan_once(text, at)[1]).end()
    return SPACE.match(text, at + 1).end() if text[at] == "," else at

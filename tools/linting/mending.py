"""Tells what isn't JSON in a text, and mends it as far as it is plain what was meant, so that what stands behind is read too."""
import bisect
import re

from linting.findings import NOT_JSON, Finding, Findings, cut, printable, quoted

MOST_NESTED = 127

SPACE = re.compile(r"[ \t\r\n]*")
ODD_SPACES = re.compile("[\x0b\x0c\x85\u00a0\u1680\u2000-\u200b\u2028\u2029\u202f\u205f\u3000\ufeff]+")
STRING = re.compile(r'"(?:[^"\\\x00-\x1f]|\\(?:["\\/bfnrt]|u[0-9a-fA-F]{4}))*"')
ITEM = r'(?:"[^"\\\x00-\x1f]*"|-?(?:0|[1-9][0-9]{0,200}))[ \t\r\n]*'
ROW = rf"\[[ \t\r\n]*(?:{ITEM}(?:,[ \t\r\n]*{ITEM})*)?\][ \t\r\n]*"
PLAIN_ITEMS = re.compile(rf'(?:(?:{ITEM}|{ROW}),[ \t\r\n]*){{1,200}}(?=["\[0-9-])')
LOOSE_STRING = re.compile(r'"(?:[^"\\\n]|\\[^\n])*"')
QUOTED_OTHERWISE = re.compile(r"'((?:[^'\\\n]|\\[^\n])*)'|[“”„«]([^“”«»\"\n]*)[“”»\"]|[‘’‚]([^‘’'\n]*)[‘’']|`([^`\n]*)`")
NUMBER = re.compile(r"-?(?:0|[1-9][0-9]*)(?:\.[0-9]+)?(?:[eE][+-]?[0-9]+)?")
LIKE_A_NUMBER = re.compile(r"[+-]?\.?[0-9][\w.+-]*|[+-]?\.[0-9]\w*|-")
WORD = re.compile(r"[^\W\d][\w./:-]*")
PAIR = r"\\u[dD][89abAB][0-9a-fA-F]{2}\\u[dD][c-fC-F][0-9a-fA-F]{2}"
HALF = r"\\u[dD][89a-fA-F][0-9a-fA-F]{2}"
ESCAPES = re.compile(
    rf'{PAIR}|(?P<half>{HALF})|\\(?:["\\/bfnrt]|u[0-9a-fA-F]{{4}})|(?P<escape>\\)|(?P<control>[\x00-\x1f])'
)
WORDS = {"true": "true", "false": "false", "null": "null"}
OTHER_WORDS = {
    "True": ("true", "Python's json.dumps writes JSON, str and print don't"),
    "False": ("false", "Python's json.dumps writes JSON, str and print don't"),
    "None": ("null", "Python's json.dumps writes JSON, str and print don't"),
    "NaN": ('"NaN"', 'write what is missing as a text, as "NA" or ""'),
    "Infinity": ('"inf"', "write it as a text, in double quotes"),
    "undefined": ("null", "leave the field out"),
    "NA": ('"NA"', "write it as a text, in double quotes"),
}


class Broken(Exception):
    """From here on it isn't plain what was meant."""


class Mender:
    """Goes through a text once. `found` has what isn't JSON; `is_guessed` says that a value was put in the place of what was there."""

    def __init__(self, text):
        self.text, self.found, self.is_guessed = text, Findings(), False
        self.pieces, self.kept = [], 0
        self.open = []  # the open brackets, each with its offset

    def mended(self):
        """The mended text with its pieces' offsets, and whether it is whole."""
        is_whole = True
        try:
            self.document()
        except Broken:
            is_whole = False
        self.replace(len(self.text), len(self.text), "")
        return Mended(self.pieces), is_whole

    def tell(self, offset, what, mend):
        self.found.append(Finding(NOT_JSON, what, mend, offset=offset))
        if self.found.left_out:
            raise Broken

    def stop(self, offset, what, mend):
        self.tell(offset, what, mend)
        raise Broken

    def replace(self, begin, end, new, is_guess=False):
        self.pieces.append((self.kept, self.text[self.kept : begin]))
        self.pieces.append((begin, new))
        self.kept = end
        self.is_guessed = self.is_guessed or is_guess

    # The text

    def document(self):
        i, due = 0, "value"
        while due != "end":
            i = self.room(i)
            i, due = getattr(self, due)(i)
        end = self.room(i)
        if end == len(self.text):
            return
        if self.text[end] in "{[":
            self.tell(end, "a second document begins here", "one file has one document; take it apart")
            self.replace(end, len(self.text), "")
        elif self.text[end] in "]}":
            self.stop(end, f"{quoted(self.text[end])} closes nothing, since the document has ended", "is there a closing bracket too many?")
        else:
            self.stop(end, "more text behind the document's end", "take it out, or is a closing bracket before it too many?")

    def room(self, i):
        """Goes over spaces, and over comments and odd spaces, which it tells."""
        while True:
            i = SPACE.match(self.text, i).end()
            sign = self.text[i : i + 1]
            if not sign:
                return i
            odd = ODD_SPACES.match(self.text, i)
            if odd:
                end = odd.end()
                self.tell(i, f"the character U+{ord(sign):04X}, which only looks like a space", "put a plain space")
            elif sign == "#" or self.text.startswith(("//", "/*"), i):
                closing = "*/" if self.text.startswith("/*", i) else "\n"
                end = self.text.find(closing, i + 1 if closing == "\n" else i + 2)
                end = len(self.text) if end < 0 else end + (2 if closing == "*/" else 0)
                self.tell(i, "a comment", "JSON has none: take it out")
            else:
                return i
            self.replace(i, end, " ")
            i = end

    def ended(self):
        """Tells that the text ends too soon."""
        if not self.open:
            self.stop(len(self.text), "the text ends before there is a value", "is the file cut short?")
        bracket, offset = self.open[-1]
        line = self.text.count("\n", 0, offset) + 1
        mend = f"{quoted(bracket)} of line {line} isn't closed: is a bracket missing, or the file cut short?"
        self.stop(len(self.text), "the text ends before all brackets are closed", mend)

    def after_value(self):
        return "next" if self.open else "end"

    def value(self, i):
        if self.open and self.open[-1][0] == "[" and len(self.open) < MOST_NESTED:
            plain = PLAIN_ITEMS.match(self.text, i)
            i = plain.end() if plain else i
        sign = self.text[i : i + 1]
        if not sign:
            self.ended()
        if sign in "{[":
            if len(self.open) >= MOST_NESTED:
                self.stop(i, f"lists or objects nested more than {MOST_NESTED} deep", "take out brackets")
            self.open.append((sign, i))
            return i + 1, "first_key" if sign == "{" else "first_value"
        if sign == '"':
            return self.string(i), self.after_value()
        otherwise = QUOTED_OTHERWISE.match(self.text, i)
        if otherwise:
            return self.quoted_otherwise(otherwise), self.after_value()
        if LIKE_A_NUMBER.match(self.text, i):
            return self.number(i), self.after_value()
        word = WORD.match(self.text, i)
        if word:
            return self.word(word), self.after_value()
        if sign in ",]}:;":
            self.stop(i, f"{quoted(sign)} stands where a value must stand", "is a value missing, or a comma too many?")
        self.stop(i, f"{quoted(sign)} stands where a value must stand", "a text needs double quotes")

    def first_value(self, i):
        if self.text[i : i + 1] == "]":
            return self.close(i)
        return self.item(i)

    def item(self, i):
        """A value in an array, behind a bracket or comma."""
        while self.text[i : i + 1] == ",":
            self.tell(i, "a comma too many", "take it out")
            self.replace(i, i + 1, " ")
            i = self.room(i + 1)
        if self.text[i : i + 1] == "]":
            return self.close(i)
        return self.value(i)

    def first_key(self, i):
        if self.text[i : i + 1] == "}":
            return self.close(i)
        return self.key(i)

    def key(self, i):
        while self.text[i : i + 1] == ",":
            self.tell(i, "a comma too many", "take it out")
            self.replace(i, i + 1, " ")
            i = self.room(i + 1)
        sign = self.text[i : i + 1]
        if not sign:
            self.ended()
        if sign == "}":
            return self.close(i)
        if sign == '"':
            return self.string(i), "colon"
        otherwise = QUOTED_OTHERWISE.match(self.text, i)
        if otherwise:
            return self.quoted_otherwise(otherwise), "colon"
        word = re.compile(r"[\w-]+").match(self.text, i)
        if word:
            self.tell(i, f"the key {quoted(word[0])} without quotes", "keys stand in double quotes")
            self.replace(i, word.end(), f'"{word[0]}"')
            return word.end(), "colon"
        mend = "an object has keys, each with a value; a list stands in [..]" if sign in "{[" else "is there a sign too many?"
        self.stop(i, f"{quoted(sign)} stands where a key must stand", mend)

    def colon(self, i):
        sign = self.text[i : i + 1]
        if not sign:
            self.ended()
        if sign == ":":
            return i + 1, "value"
        if sign == "=":
            end = i + (2 if self.text.startswith("=>", i) else 1)
            self.tell(i, '"=" stands behind a key', 'put ":"')
            self.replace(i, end, ":")
            return end, "value"
        if sign in ",}]":
            self.stop(i, "a key without a value", "in an object each key has a value; a list stands in [..]")
        self.tell(i, "no colon behind a key", 'put ":"')
        self.replace(i, i, ":")
        return i, "value"

    def next(self, i):
        """What follows a value in an object or array."""
        sign = self.text[i : i + 1]
        inside = self.open[-1][0]
        if not sign:
            self.ended()
        if sign in "}]":
            return self.close(i)
        due = "key" if inside == "{" else "item"
        if sign in ",;":
            if sign == ";":
                self.tell(i, '";" stands between two entries', "put a comma")
                self.replace(i, i + 1, ",")
            behind = self.room(i + 1)
            if self.text[behind : behind + 1] == ("}" if inside == "{" else "]"):
                if sign == ",":
                    self.tell(i, "a comma before a closing bracket", "take it out")
                self.take_comma_out(i)
                return behind, "next"
            return behind, due
        if sign == ":":
            mend = "only an object has keys: was { meant for [?" if inside == "[" else "is a quote or comma missing before it?"
            self.stop(i, "a colon where a comma or bracket must stand", mend)
        if sign in '"{[-\'“‘' or sign.isalnum():
            behind = i
            while self.text[behind - 1] in " \t\r\n":
                behind -= 1
            token = re.compile(r'"[^"\n]{0,30}"?|[\w.+-]+|.').match(self.text, i)
            self.tell(behind, f"no comma before {printable(token[0])}", "put one here")
            self.replace(i, i, ",")
            return i, due
        self.stop(i, f"{quoted(sign)} stands where a comma or bracket must stand", "take it out")

    def take_comma_out(self, i):
        """A comma before a closing bracket, which stands in the pieces already where spaces behind it were mended."""
        if self.kept <= i:
            self.replace(i, i + 1, " ")
            return
        for number in range(len(self.pieces) - 1, -1, -1):
            begin, piece = self.pieces[number]
            if begin <= i < begin + len(piece) and piece[i - begin] == ",":
                self.pieces[number] = (begin, piece[: i - begin] + " " + piece[i - begin + 1 :])
                return

    def close(self, i):
        bracket, offset = self.open[-1]
        due = "}" if bracket == "{" else "]"
        if self.text[i] != due:
            line = self.text.count("\n", 0, offset) + 1
            mend = f"it has to close {quoted(bracket)} of line {line}: is a bracket missing before it, or one too many?"
            self.stop(i, f"{quoted(self.text[i])} stands where {quoted(due)} must stand", mend)
        self.open.pop()
        return i + 1, self.after_value()

    # Texts, numbers and words

    def string(self, i):
        found = STRING.match(self.text, i)
        if found and "\\u" not in found[0]:
            return found.end()
        found = LOOSE_STRING.match(self.text, i)
        if not found:
            end = self.text.find("\n", i)
            more = ' and a " as \\"' if '"' in self.text[i + 1 : end if end >= 0 else None] else ""
            mend = f'close it with ", and write a line end in a text as \\n{more}'
            self.stop(i, "a text that doesn't end in its line", mend)
        for odd in ESCAPES.finditer(self.text, i, found.end()):
            at = odd.start()
            if odd["half"]:
                self.tell(at, f"{odd[0]} is half of a character", "write the character itself, or both halves")
                self.replace(at, at + 6, "\\ufffd", True)
            elif odd["escape"]:
                self.tell(at, f"{printable(self.text[at : at + 2])} is no escape", "write \\\\ for one \\")
                self.replace(at, at + 1, "\\\\")
            elif odd["control"]:
                escape = {"\t": "\\t", "\r": "\\r"}.get(odd[0], f"\\u{ord(odd[0]):04x}")
                name = "a tabulator" if odd[0] == "\t" else f"the control character U+{ord(odd[0]):04X}"
                self.tell(at, f"{name} in a text", f"write it as {escape}")
                self.replace(at, at + 1, escape)
        return found.end()

    def quoted_otherwise(self, found):
        sign, inner = found[0][0], next(it for it in found.groups() if it is not None)
        kind = {"'": "single quotes", "`": "backticks"}.get(sign, "curly quotes")
        self.tell(found.start(), f"a text in {kind}", 'texts stand in straight double quotes, "like this"')
        inner = re.sub(r"\\(.)", lambda it: it[0] if it[1] in '"\\/bfnrt' else it[1], inner)
        inner = re.sub(r'(?<!\\)"', '\\"', inner.replace("\t", "\\t"))
        self.replace(found.start(), found.end(), f'"{inner}"' if STRING.fullmatch(f'"{inner}"') else '"?"')
        return found.end()

    def number(self, i):
        whole, right = LIKE_A_NUMBER.match(self.text, i), NUMBER.match(self.text, i)
        if right and right.end() == whole.end():
            if abs(float(right[0])) != float("inf"):
                return right.end()
            self.tell(i, "a number that is too great to be read", "give it as a text, in double quotes")
        elif re.fullmatch(r"-?0[0-9]+", whole[0]):
            self.tell(i, f"the number {printable(cut(whole[0]))} begins with a zero", 'take it out, or give a text, as "007"')
        elif whole[0] == "-" and self.text.startswith("-Infinity", i):
            self.tell(i, "-Infinity, which is no JSON", OTHER_WORDS["Infinity"][1])
            self.replace(i, i + 9, "1", True)
            return i + 9
        else:
            mend = 'a text needs double quotes, as "1.2.3"; a number is as 17 or -4'
            self.tell(i, f"{printable(cut(whole[0]))} is no number", mend)
        self.replace(i, whole.end(), "1", True)
        return whole.end()

    def word(self, found):
        word, end = found[0], found.end()
        if word in WORDS:
            return end
        if word in OTHER_WORDS:
            self.tell(found.start(), f"{word}, which is no JSON", OTHER_WORDS[word][1])
            self.replace(found.start(), end, OTHER_WORDS[word][0], True)
            return end
        self.tell(found.start(), f"{printable(cut(word))} without quotes", "a text stands in double quotes")
        self.replace(found.start(), end, f'"{word}"')
        return end


class Mended:
    """A text in pieces, each with the offset in the text as it was."""

    def __init__(self, pieces):
        self.text = "".join(piece for _, piece in pieces)
        self.begins, self.offsets = [], []
        begin = 0
        for offset, piece in pieces:
            if piece:
                self.begins.append(begin)
                self.offsets.append((offset, len(piece)))
                begin += len(piece)

    def offset(self, place):
        """The offset in the text as it was of a place in the mended one."""
        number = bisect.bisect_right(self.begins, place) - 1
        if number < 0:
            return place
        offset, length = self.offsets[number]
        return offset + min(place - self.begins[number], length - 1)

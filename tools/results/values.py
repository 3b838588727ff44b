"""Values as the program prints them: a text, a list of values, or an object that holds an error document."""


def is_error(value):
    return isinstance(value, dict)


def place_text(place):
    return "[" + ",".join(map(str, place)) + "]"


def parts(value, place=()):
    """The texts, error documents and empty lists of a value, each with its place, in order."""
    if isinstance(value, list) and value:
        for index, item in enumerate(value):
            yield from parts(item, place + (index,))
    else:
        yield place, value


def least_depth(value):
    """The least depth that a value has; an empty list has every depth from 1."""
    if isinstance(value, list):
        return 1 + max(map(least_depth, value), default=0)
    return value["error"]["depth"] if is_error(value) else 0


def rows(value):
    """The rows of a table of a value: a place, and the items of the list there. A list that holds lists has a row for each of
    its innermost ones, and one for what stands in the place of a list; a plain list has one for each item. An empty list is a
    row without items."""
    if not isinstance(value, list):
        return [((), [value])]
    if not any(isinstance(item, list) for item in value):
        return [((index,), [item]) for index, item in enumerate(value)] or [((), [])]
    found = []

    def walk(place, it):
        if isinstance(it, list) and any(isinstance(item, list) for item in it):
            for index, item in enumerate(it):
                walk(place + (index,), item)
        else:
            found.append((place, it if isinstance(it, list) else [it]))

    walk((), value)
    return found


def plain(text, kept=""):
    """A text on one line: what can't be printed is escaped as in JSON, but for the signs that are kept."""
    return "".join(it if it.isprintable() or it in kept else ESCAPES.get(it) or f"\\u{ord(it):04x}" for it in text)


ESCAPES = {"\n": "\\n", "\t": "\\t", "\r": "\\r"}


def cut(text, most):
    return text if len(text) <= most else text[: most - 1] + "…"


def many(number, what):
    """A number of things: 1 job, 2 jobs."""
    return f"{number} {what}" + "s" * (number != 1)

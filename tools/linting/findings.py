"""What lint finds, and the words in which it is told."""
import json
import re

WARNING, READ_FAULT, TOO_LONG, NOT_JSON, FORM, CHECK = 0, 3, 4, 5, 6, 7
MOST_SHOWN, MOST_LISTED, MOST_FOUND = 40, 8, 2000


class Finding:
    """One thing that lint found.

    `status` is the program's for it, 0 for a warning. `what` says what is wrong and `mend` how to mend it. The place is an `offset`
    in the text, or a `path` in the document: that of the key there where `is_key`. `said` is the line that the program prints where
    this is the first fault.
    """

    def __init__(self, status, what, mend="", path=(), is_key=False, offset=None, said=""):
        self.status, self.what, self.mend, self.said = status, what, mend, said
        self.path, self.is_key, self.offset = tuple(path), is_key, offset
        self.line, self.column = 1, 1

    def level(self):
        return "error" if self.status else "warning"

    def message(self):
        return f"{self.what}; {self.mend}" if self.mend else self.what

    def likeness(self):
        """What is equal in findings that differ in the item of a list alone."""
        kind = self.said.split(" at ")[0] or self.what
        return self.status, kind, tuple(it for it in self.path if not isinstance(it, int))


class Findings(list):
    """A list of findings that takes so many, and then counts those that it leaves out."""

    def __init__(self):
        super().__init__()
        self.left_out = 0

    def append(self, finding):
        if self.are_enough():
            self.left_out += 1
        else:
            super().append(finding)

    def are_enough(self):
        return len(self) >= MOST_FOUND


def printable(text):
    """The text on one line, with what can't be printed as escapes."""
    if text.isprintable():
        return text
    return "".join(it if it.isprintable() else f"\\u{ord(it):04x}" if ord(it) < 0x10000 else f"\\U{ord(it):08x}" for it in text)


def cut(text, most=MOST_SHOWN):
    return text if len(text) <= most else text[: most - 1] + "…"


def quoted(text):
    """A text as it would stand in a document, cut where it is long."""
    return printable('"' + cut(text).replace("\\", "\\\\").replace('"', '\\"').replace("\n", "\\n").replace("\t", "\\t") + '"')


def listed(words, most=MOST_LISTED):
    words = list(words)
    more = f" and {len(words) - most} more" if len(words) > most else ""
    return ", ".join(quoted(it) for it in words[:most]) + more


def counted(number, one, many=None):
    return f"{number} {one if number == 1 else many or one + 's'}"


def as_json(thing, most=100):
    """The JSON text of a thing, and nothing where it is too long to be shown."""
    text = json.dumps(thing, ensure_ascii=False, default=lambda odd: float(odd.text))
    return printable(text) if len(text) <= most else ""


def path_text(path):
    """A path as the program prints it."""
    return json.dumps(list(path), ensure_ascii=False, separators=(",", ":"))


def path_of(text):
    """The path that the program printed; None where it is none."""
    try:
        path = json.loads(text)
    except ValueError:
        return None
    return tuple(path) if isinstance(path, list) else None


FORM_LINE = re.compile(r"taverna: form fault (\d+) ([a-z ]+) at (\[.*\])")
CHECK_LINE = re.compile(r"taverna: check fault (\d+) ([a-z ]+) at (.+?)(?:: (\d+) and (\d+))?")

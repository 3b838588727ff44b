"""The local services, as the table that ends docs/guide.md has them."""

ANY = None


class Service:
    """The depths of a service's inputs, and the depth of what it gives (that of its input where it takes any)."""

    def __init__(self, takes, gives, numbers=(), is_ordered=True, roles=()):
        self.takes, self.gives = takes, gives
        self.numbers = numbers  # which inputs must be numbers
        self.is_ordered = is_ordered  # whether it matters which input comes first
        self.roles = roles  # what the inputs are


SERVICES = {
    "add": Service((0, 0), 0, (0, 1), False),
    "concat": Service((0, 0), 0, roles=("the text that comes first", "the text that follows")),
    "count": Service((1,), 0),
    "distinct": Service((1,), 1),
    "echo": Service((ANY,), ANY),
    "fail_if": Service((0,), 0),
    "flaky": Service((0, 0), 0, (1,), roles=("the text", "the attempt from which it is given")),
    "flatten": Service((2,), 1),
    "intersect": Service((1, 1), 1, roles=("the list whose items are kept", "the list that they must stand in")),
    "join": Service((1, 0), 0, roles=("the items", "the text between them")),
    "length": Service((0,), 0),
    "lower": Service((0,), 0),
    "range": Service((0, 0), 1, (0, 1), roles=("the first number", "the last number")),
    "reverse": Service((1,), 1),
    "split": Service((0, 0), 1, roles=("the text to be split", "the separator")),
    "subtract": Service((0, 0), 0, (0, 1), roles=("the number", "what is taken from it")),
    "take": Service((1, 0), 1, (1,), roles=("the list", "how many of its items")),
    "upper": Service((0,), 0),
}

# Names of ports that tell which input is meant: words of the first, and words of the second.

PORT_WORDS = {
    "split": ({"text", "string", "line", "lines", "value", "input", "row"},
              {"by", "sep", "separator", "delimiter", "delim", "at", "on", "comma", "tab", "mark"}),
    "range": ({"start", "begin", "first", "from", "low", "min", "least", "lower"},
              {"end", "stop", "last", "to", "until", "high", "max", "most", "upper"}),
    "subtract": ({"total", "whole", "end", "from", "minuend", "all", "max", "high"},
                 {"less", "minus", "start", "subtrahend", "part", "off", "used", "min", "low"}),
    "concat": ({"prefix", "first", "left", "head", "begin", "start", "before"},
               {"suffix", "second", "right", "tail", "end", "last", "after"}),
    "flaky": ({"text", "value", "item"}, {"attempt", "attempts", "busy", "until"}),
}


def is_number(text):
    """Whether a text is read as a number by the services."""
    digits = text[1:] if text.startswith("-") else text
    if not (digits.isascii() and digits.isdigit()):
        return False
    digits = digits.lstrip("0")
    return len(digits) < 20 and -(2**63) <= int((text[:1] if text[0] == "-" else "") + (digits or "0")) < 2**63

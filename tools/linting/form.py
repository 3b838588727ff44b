"""The form of a document: all its faults, in the order in which the program meets them."""
import re

from linting import words
from linting.findings import FORM, Finding, Findings, as_json, counted, cut, listed, path_text, printable, quoted
from linting.reading import Odd

MISSING, UNKNOWN, WRONG_KIND, BAD_NAME, OUT_OF_RANGE, EMPTY, NOT_TEXT, RAGGED = range(1, 9)
WORDS = ("missing", "unknown", "wrong kind", "bad name", "out of range", "empty", "not text", "ragged")

NAME = re.compile(r"[A-Za-z0-9_]{1,64}")
MOST_DEPTH = 32

# Of each kind of object its fields in the program's order, and whether the field must be there.

FIELDS = {
    "a document": {"taverna": True, "main": True, "flows": True, "inputs": False},
    "a flow": {"inputs": False, "steps": False, "outputs": True},
    "a step": {"inputs": False, "outputs": False, "strategy": False, "activities": True, "retries": False, "jobs": False, "after": False},
    "a loop": {"service": True, "until": True, "most": True},
    "an input port": {"depth": True, "from": True},
    "a feed from an input": {"input": True},
    "a feed from a step": {"step": True, "port": True},
    "a merge": {"merge": True},
    "a constant": {"constant": True},
    "a cross": {"cross": True},
    "a dot": {"dot": True},
    "a prefix node": {"prefix": True},
    "a service": {"service": True},
    "a nested flow": {"flow": True},
}
FEEDS = {"input": "a feed from an input", "step": "a feed from a step", "merge": "a merge", "constant": "a constant"}
LINKS = {"input": "a feed from an input", "step": "a feed from a step"}
NAMED_BY = {"input": "the name of a flow input", "step": "the name of a step", "port": "the name of a step's output"}
TREES = {"cross": "a cross", "dot": "a dot"}
# What format 2 has besides, and how a document of format 1 comes to have it.
SECOND_FIELDS = {"a step": {"loop": False}}
SECOND_TREES = {"prefix": "a prefix node"}
SECOND = 'write "taverna": 2'
ACTIVITIES = {"service": "a service", "flow": "a nested flow"}

# How each kind of thing is written.

SAMPLES = {
    "a document": '{"taverna": 1, "main": "NAME", "flows": {..}, "inputs": {..}}',
    "a flow": '{"inputs": {"x": 1}, "steps": {..}, "outputs": {"o": LINK}}',
    "a step": '{"inputs": {..}, "outputs": {"o": 0}, "activities": [{"service": "upper"}]}',
    "an input port": '{"depth": 0, "from": {"input": "x"}}',
    "a feed": '{"input": "x"}, {"step": "s", "port": "o"}, {"merge": [LINK, LINK]} or {"constant": "text"}',
    "a link": '{"input": "x"} or {"step": "s", "port": "o"}',
    "a strategy": 'a port\'s name, {"cross": ["a", "b"]} or {"dot": ["a", "b"]}',
    "a loop": '{"service": "echo", "until": "done", "most": 10}',
    "an activity": '{"service": "upper"} or {"flow": "NAME"}',
    "flows": '{"NAME": {"inputs": {..}, "steps": {..}, "outputs": {..}}}',
    "steps": '{"NAME": {"inputs": {..}, "outputs": {..}, "activities": [..]}}',
    "values": '{"x": ["a", "b"]}',
    "inputs of a flow": '{"x": 1}, each with its depth',
    "outputs of a flow": '{"o": {"step": "s", "port": "o"}}',
    "input ports": '{"x": {"depth": 0, "from": {"input": "x"}}}',
    "output ports": '{"o": 0}, each with its depth',
    "activities": '[{"service": "upper"}]',
    "names of steps": '["clean"]',
    "links": '[{"input": "x"}, {"step": "s", "port": "o"}]',
    "ports and trees": '["a", "b"]',
}


def kind_of(thing):
    """What a thing is, in words."""
    if thing is None:
        return "null"
    for kind, name in ((bool, "true or false"), (str, "a text"), (int, "a number"), (Odd, "a number"), (list, "a list")):
        if isinstance(thing, kind):
            return name
    return "an object"


def bytewise(thing):
    """The entries of an object in byte order of their keys, as the program takes them."""
    return sorted(thing.items())


class Form:
    """Goes through a document. `found` has the faults of its form, in the order in which the program meets them."""

    def __init__(self, nearest):
        self.found, self.nearest = Findings(), nearest
        self.is_second = False

    def tell(self, fault, path, what, mend, at=None, is_key=False):
        """Tells a fault at a path; the place that is shown is that of `at` where the path itself isn't there."""
        said = f"taverna: form fault {fault} {WORDS[fault - 1]} at {path_text(path)}"
        self.found.append(Finding(FORM, what, mend, path if at is None else at, is_key, said=said))

    # Objects, arrays, names and numbers

    def opened(self, path, thing, what):
        """Tells where a thing is no object, and which of its keys are no fields. Gives the fields that these meant, None for no object."""
        if not isinstance(thing, dict):
            self.tell(WRONG_KIND, path, f"{kind_of(thing)} stands where {what} must stand, an object", self.instead(thing, what))
            return None
        fields, meant = FIELDS[what], set()
        if self.is_second:
            fields = {**fields, **SECOND_FIELDS.get(what, {})}
        for key in sorted(it for it in thing if it not in fields):
            if self.found.are_enough():
                self.found.left_out += 1
                continue
            whose, mend, here = self.field_meant(key, thing, fields, what)
            if key in SECOND_FIELDS.get(what, {}):
                whose, mend, here = None, f"it is a field of format 2: {SECOND}", None
            meant.add(here)
            self.no_field(path, key, what, mend, whose)
        return meant

    def has(self, path, thing, key, what, meant):
        """Whether an object has a field; tells where it is wanting and no wrong key meant it."""
        if key in thing:
            return True
        if FIELDS[what][key] and key not in meant:
            self.tell(MISSING, (*path, key), f"{what} has no {quoted(key)}", self.sample_of(key, what), path)
        return False

    def instead(self, thing, what):
        if isinstance(thing, str) and words.depth_meant(thing) is not None and "port" in what:
            return f'write {{"depth": {words.depth_meant(thing)}, "from": LINK}}'
        return f"write {SAMPLES[what]}" if what in SAMPLES else "write it in { and }"

    def sample_of(self, key, what):
        """How a field that is wanting is written."""
        samples = {
            ("taverna", "a document"): 'add "taverna": 1',
            ("main", "a document"): 'add "main": "NAME", the flow that runs',
            ("flows", "a document"): f'add "flows": {SAMPLES["flows"]}',
            ("outputs", "a flow"): f'add "outputs": {SAMPLES["outputs of a flow"]}, or {{}} for none',
            ("activities", "a step"): f'add "activities": {SAMPLES["activities"]}',
            ("depth", "an input port"): 'add "depth": 0, or the depth of lists that it takes whole',
            ("from", "an input port"): f'add "from": {SAMPLES["a link"]}',
            ("service", "a loop"): 'add "service": "NAME", the one that is asked after each round',
            ("until", "a loop"): 'add "until": "TEXT", which ends the loop',
            ("most", "a loop"): 'add "most": 10, the greatest number of rounds',
            ("port", "a feed from a step"): 'add "port": "NAME", the step\'s output that is meant',
        }
        return samples.get((key, what), "add it")

    def no_field(self, path, key, what, mend, whose=None):
        """Tells a key that is no field, and whose word it is where another system has it."""
        but = f" but a word of {whose}" if whose else ""
        self.tell(UNKNOWN, (*path, key), f"{quoted(key)} is no field of {what}{but}", mend, is_key=True)

    def field_meant(self, key, thing, fields, what):
        """For a key that is no field: whose word it is, how to mend it, and the field that it means where that is plain."""
        if what == "an input port" and key in ("port", *FEEDS):
            return None, f'a link stands in "from", as {{"depth": 0, "from": {SAMPLES["a link"].split(" or ")[0]}}}', "from"
        whose, mend, here = words.foreign(key, fields)
        if whose:
            return whose, mend, here
        near, is_likely = self.nearest.first(key, [it for it in fields if it not in thing])
        if is_likely:
            return None, f"did you mean {quoted(near[0])}? The fields of {what}: {listed(fields)}", near[0]
        return None, f"take it out; the fields of {what}: {listed(fields)}", None

    def named(self, path, thing, what, least, most):
        """The entries of an object of names, in byte order; tells what isn't right of it and of its names."""
        if not isinstance(thing, dict):
            mend = f"write {SAMPLES[what]}"
            if isinstance(thing, list) and thing and all(isinstance(it, str) and NAME.fullmatch(it) for it in thing[:4]):
                names = {it: 0 for it in thing[:4]}
                mend = f"names are keys: write {as_json(names)}" if what in ("output ports", "inputs of a flow") else mend
            elif isinstance(thing, list) and what in ("steps", "flows"):
                mend = f"each has its name as key: {mend}"
            self.tell(WRONG_KIND, path, f"{kind_of(thing)} stands where {what} by name must stand, an object", mend)
            return []
        self.number_of_entries(path, thing, what, least, most)
        return bytewise(thing)

    def number_of_entries(self, path, thing, what, least, most):
        if len(thing) < least:
            self.tell(EMPTY, path, f"there are no {what} here", f"there must be {least} at least, as {SAMPLES[what]}")
        elif len(thing) > most:
            self.tell(OUT_OF_RANGE, path, f"{len(thing)} {what}", f"there may be {most}")

    def listed(self, path, thing, what, least, most):
        """The items of an array; tells what isn't right of it."""
        if not isinstance(thing, list):
            mend = f"write {SAMPLES[what]}"
            if what == "names of steps" and isinstance(thing, dict) and as_json(list(thing), 60):
                mend = f"write {as_json(list(thing))}"
            elif isinstance(thing, (str, dict)) and as_json(thing, 60):
                mend = f"put it in brackets: [{as_json(thing, 60)}]"
            self.tell(WRONG_KIND, path, f"{kind_of(thing)} stands where a list of {what} must stand", mend)
            return []
        self.number_of_entries(path, thing, what, least, most)
        return list(enumerate(thing))

    def key(self, path):
        """Tells where the last part of a path is no name."""
        if not NAME.fullmatch(path[-1]):
            self.no_name(path, path[-1], True)

    def name(self, path, thing, what):
        if not isinstance(thing, str):
            mend = "write it in double quotes" if isinstance(thing, (int, Odd)) else 'write it as a text, as "NAME"'
            self.tell(WRONG_KIND, path, f"{kind_of(thing)} stands where {what} must stand, a text", mend)
        elif not NAME.fullmatch(thing):
            self.no_name(path, thing, False)

    def no_name(self, path, text, is_key):
        better = re.sub(r"[^A-Za-z0-9_]", "_", text)[:64]
        rule = "a name is 1 to 64 of the letters, digits and _ of ASCII"
        why = f"has {counted(len(text), 'character')}" if len(text) > 64 else "is no name"
        mend = f"{rule}, as {quoted(better)}" if NAME.fullmatch(better) and better.strip("_") else rule
        self.tell(BAD_NAME, path, f"{quoted(text)} {why}", mend, is_key=is_key)

    def number(self, path, thing, what, least, most):
        rule = f"it is {least}" if least == most else f"it is a whole number from {least} to {most}"
        if isinstance(thing, bool) or not isinstance(thing, int):
            mend = rule
            depth = words.depth_meant(thing) if what == "a depth" else None
            if isinstance(thing, str) and re.fullmatch("[0-9]{1,9}", thing):
                mend = f"write {int(thing)} without quotes"
            elif depth is not None:
                mend = f"write {depth}: 0 is a text, 1 a list of texts, 2 a list of lists"
            elif isinstance(thing, Odd) and re.fullmatch(r"-?[0-9]{1,9}\.0+", thing.text):
                mend = f"write {thing.text.split('.')[0]}, without a fraction"
            kind = f"the number {printable(cut(thing.text))}" if isinstance(thing, Odd) else kind_of(thing)
            self.tell(WRONG_KIND, path, f"{kind} stands where {what} must stand, a whole number", mend)
        elif not least <= thing <= most:
            self.tell(OUT_OF_RANGE, path, f"{thing} as {what}", rule)

    # The document

    def document(self, thing):
        if not isinstance(thing, dict):
            self.opened((), thing, "a document")
            return
        what = "a document"
        meant = self.opened((), thing, what)
        if self.has((), thing, "taverna", what, meant):
            self.number(("taverna",), thing["taverna"], "the number of the form", 1, 2)
            self.is_second = thing["taverna"] == 2 and not isinstance(thing["taverna"], bool)
        if self.has((), thing, "main", what, meant):
            self.name(("main",), thing["main"], "the name of the flow that runs")
        if self.has((), thing, "flows", what, meant):
            for name, flow in self.named(("flows",), thing["flows"], "flows", 1, 256):
                self.key(("flows", name))
                self.flow(("flows", name), flow)
        if "inputs" in thing:
            for name, value in self.named(("inputs",), thing["inputs"], "values", 0, 16):
                self.key(("inputs", name))
                self.value(("inputs", name), value)
        other = other_document(thing)
        if other and self.found:
            self.found[0].mend = other

    def flow(self, path, flow):
        meant = self.opened(path, flow, "a flow")
        if meant is None:
            return
        self.depths((*path, "inputs"), flow, "inputs", "inputs of a flow")
        if "steps" in flow:
            for name, step in self.named((*path, "steps"), flow["steps"], "steps", 0, 1000):
                self.key((*path, "steps", name))
                self.step((*path, "steps", name), step)
        if self.has(path, flow, "outputs", "a flow", meant):
            for name, feed in self.named((*path, "outputs"), flow["outputs"], "outputs of a flow", 0, 16):
                self.key((*path, "outputs", name))
                if isinstance(feed, dict) and set(feed) <= {"outputSource", "type", "depth", "from", "source"} and feed:
                    self.wrapped(path, name, feed)
                else:
                    self.feed((*path, "outputs", name), feed, FEEDS)

    def wrapped(self, path, name, feed):
        """An output that is written as an input port is, or as CWL does."""
        for key in sorted(feed):
            inner = feed.get("from", feed.get("source", feed.get("outputSource")))
            meant = words.link_meant(inner) if isinstance(inner, str) else None
            link = as_json({"step": meant[0], "port": meant[1]} if meant and meant[0] else inner) if inner is not None else ""
            mend = f"a flow's output is its link alone, as {quoted(name)}: " + (link if link[:1] == "{" else SAMPLES["a link"])
            self.no_field((*path, "outputs", name), key, "a feed", mend, words.foreign(key, ())[0])

    def depths(self, path, thing, field, what):
        if field in thing:
            for name, depth in self.named(path, thing[field], what, 0, 16):
                self.key((*path, name))
                self.number((*path, name), depth, "a depth", 0, MOST_DEPTH)

    def step(self, path, step):
        meant = self.opened(path, step, "a step")
        if meant is None:
            return
        if "inputs" in step:
            for name, port in self.named((*path, "inputs"), step["inputs"], "input ports", 0, 16):
                self.key((*path, "inputs", name))
                self.port((*path, "inputs", name), port)
        self.depths((*path, "outputs"), step, "outputs", "output ports")
        if "strategy" in step:
            self.tree((*path, "strategy"), step["strategy"])
        if self.has(path, step, "activities", "a step", meant):
            for position, activity in self.listed((*path, "activities"), step["activities"], "activities", 1, 8):
                self.activity((*path, "activities", position), activity)
        for field, least, most in (("retries", 0, 100), ("jobs", 1, 64)):
            if field in step:
                self.number((*path, field), step[field], quoted(field), least, most)
        if "after" in step:
            for position, name in self.listed((*path, "after"), step["after"], "names of steps", 0, 16):
                self.name((*path, "after", position), name, "the name of a step")
        if self.is_second and "loop" in step:
            self.loop((*path, "loop"), step["loop"])

    def loop(self, path, loop):
        meant = self.opened(path, loop, "a loop")
        if meant is None:
            return
        if self.has(path, loop, "service", "a loop", meant):
            self.name((*path, "service"), loop["service"], "the name of a service")
        if self.has(path, loop, "until", "a loop", meant) and not isinstance(loop["until"], str):
            what = f"{kind_of(loop['until'])} stands where the text that ends a loop must stand"
            mend = f"write {quoted(str(loop['until']))}" if isinstance(loop["until"], int) and not isinstance(loop["until"], bool) else "write it as a text"
            self.tell(WRONG_KIND, (*path, "until"), what, mend)
        if self.has(path, loop, "most", "a loop", meant):
            self.number((*path, "most"), loop["most"], "the number of rounds", 1, 100)

    def port(self, path, port):
        if isinstance(port, str) or (isinstance(port, dict) and port and set(port) <= set(FEEDS) | {"port"}):
            feed = as_json(port, 60) if isinstance(port, dict) else self.feed_meant(port, LINKS)
            if isinstance(port, str):
                what = "a text stands where an input port must stand, an object"
                self.tell(WRONG_KIND, path, what, f'write {{"depth": 0, "from": {feed}}}')
                return
            for key in sorted(port):
                mend = f'a link stands in "from": write {{"depth": 0, "from": {feed}}}'
                self.no_field(path, key, "an input port", mend)
            return
        meant = self.opened(path, port, "an input port")
        if meant is None:
            return
        if self.has(path, port, "depth", "an input port", meant):
            self.number((*path, "depth"), port["depth"], "a depth", 0, MOST_DEPTH)
        if self.has(path, port, "from", "an input port", meant):
            self.feed((*path, "from"), port["from"], FEEDS)

    def activity(self, path, activity):
        if isinstance(activity, str):
            name = re.sub(r"\.(cwl|json|t2flow)$", "", activity)
            mend = f'write {{"service": {quoted(name)}}}, or {{"flow": {quoted(name)}}}'
            self.tell(WRONG_KIND, path, "a text stands where an activity must stand, an object", mend)
            return
        if not isinstance(activity, dict):
            self.opened(path, activity, "an activity")
            return
        form = next((it for it in ACTIVITIES if it in activity), "service")
        for key in sorted(it for it in activity if it != form):
            if key in ACTIVITIES:
                mend = 'make two activities of it, tried one after the other: [{"service": ..}, {"flow": ..}]'
                self.tell(UNKNOWN, (*path, key), f"{quoted(key)} stands beside {quoted(form)} in one activity", mend, is_key=True)
            else:
                whose, mend, _ = self.field_meant(key, activity, ACTIVITIES, "an activity")
                if form in activity and not whose:
                    mend = f"take it out; {ACTIVITIES[form]} is its name alone"
                self.no_field(path, key, "an activity", mend, whose)
        if form not in activity and not activity:
            what = 'an activity has neither "service" nor "flow"'
            self.tell(MISSING, (*path, form), what, f"write {SAMPLES['an activity']}", path)
        elif form in activity:
            self.name((*path, form), activity[form], f"the name of {ACTIVITIES[form]}")

    # Feeds, trees and values

    def feed_meant(self, text, forms):
        """The feed that a text means."""
        meant = words.link_meant(text)
        if meant:
            step, name = meant
            return as_json({"step": step, "port": name} if step else {"input": name})
        return f'{{"input": {quoted(text)}}}' + (f' or {{"constant": {quoted(text)}}}' if "constant" in forms else "")

    def feed(self, path, feed, forms):
        what = "a feed" if forms is FEEDS else "a link"
        if not isinstance(feed, dict):
            mend = f"write {SAMPLES[what]}"
            if isinstance(feed, str):
                mend = f"write {self.feed_meant(feed, forms)}"
            elif isinstance(feed, list):
                mend = 'several links are {"merge": [LINK, LINK]}, a list of texts {"constant": ["a", "b"]}'
            elif isinstance(feed, int) and not isinstance(feed, bool) and forms is FEEDS:
                mend = f'write {{"constant": {feed}}}'
            self.tell(WRONG_KIND, path, f"{kind_of(feed)} stands where {what} must stand, an object", mend)
            return
        form = next((it for it in forms if it in feed), "input")
        known = FIELDS[forms[form]]
        for key in sorted(it for it in feed if it not in known):
            self.field_of_feed(path, key, feed, form, forms)
        if form not in feed:
            if not feed:
                self.tell(MISSING, (*path, "input"), f"{what} without a field", f"write {SAMPLES[what]}", path)
            return
        for key in known:
            if key not in feed:
                mend = self.sample_of(key, forms[form])
                self.tell(MISSING, (*path, key), f"a feed from the step {shown(feed['step'])} has no {quoted(key)}", mend, path)
            elif form == "merge":
                for position, link in self.listed((*path, "merge"), feed["merge"], "links", 1, 16):
                    self.feed((*path, "merge", position), link, LINKS)
            elif form == "constant":
                self.value((*path, "constant"), feed["constant"])
            else:
                self.name((*path, key), feed[key], NAMED_BY[key])

    def field_of_feed(self, path, key, feed, form, forms):
        """Tells a key in a feed that is no field there."""
        what = "a feed" if forms is FEEDS else "a link"
        here = (*path, key)
        if key in FEEDS and form in feed:
            mend = f"{what} is one of them: take one out"
            if key == "constant":
                mend = "an input has no default: take one out, and give the value in the document's \"inputs\""
            self.tell(UNKNOWN, here, f"{quoted(key)} stands beside {quoted(form)} in one feed", mend, is_key=True)
        elif key in FEEDS:
            mend = f"a merge joins links alone, {SAMPLES['a link']}; what is constant or merged comes by a step of its own"
            self.tell(UNKNOWN, here, f"{quoted(key)} stands in a link of a merge", mend, is_key=True)
        elif key == "port":
            mend = 'write {"step": "NAME", "port": "NAME"}' if form not in feed else 'take it out: only a feed from a step has it'
            self.tell(UNKNOWN, here, '"port" stands without "step"', mend, is_key=True)
        else:
            whose, mend, meant = self.field_meant(key, feed, forms, what)
            inner = feed[key]
            if key in ("source", "from") and isinstance(inner, (dict, str)):
                link = as_json(inner) if isinstance(inner, dict) else self.feed_meant(inner, forms)
                mend = f"a feed is its link itself: write {link or SAMPLES['a link']}"
            self.no_field(path, key, what, mend, whose)

    def tree(self, path, tree):
        if isinstance(tree, str):
            self.name(path, tree, "the name of a port")
            return
        if not isinstance(tree, dict):
            mend = f"write {SAMPLES['a strategy']}"
            if isinstance(tree, list) and as_json(tree, 60):
                ports = as_json(tree)
                mend = f'write {{"cross": {ports}}} for each with each, or {{"dot": {ports}}} for those at equal places'
            self.tell(WRONG_KIND, path, f"{kind_of(tree)} stands where a strategy must stand, a text or an object", mend)
            return
        trees = {**TREES, **SECOND_TREES} if self.is_second else TREES
        form = next((it for it in trees if it in tree), "cross")
        for key in sorted(it for it in tree if it != form):
            if key in SECOND_TREES and not self.is_second:
                self.no_field(path, key, "a strategy", f"a prefix node is of format 2: {SECOND}")
            elif key in trees:
                mend = 'put one into the other, as {"cross": [{"dot": ["a", "b"]}, "c"]}'
                self.tell(UNKNOWN, (*path, key), f"{quoted(key)} stands beside {quoted(form)} in one strategy", mend, is_key=True)
            else:
                whose, mend, here = self.field_meant(key, tree, trees, "a strategy")
                if here and as_json(tree[key], 60):
                    mend = f"here it is {quoted(here)}: write {{{quoted(here)}: {as_json(tree[key], 60)}}}"
                self.no_field(path, key, "a strategy", mend, whose)
        if form in tree:
            least, most = (2, 2) if form == "prefix" else (1, 16)
            for position, child in self.listed((*path, form), tree[form], "ports and trees", least, most):
                self.tree((*path, form, position), child)
        elif not tree:
            self.tell(MISSING, (*path, form), "a strategy without a field", f"write {SAMPLES['a strategy']}, or none", path)

    def value(self, path, value):
        """Tells what is no value. Gives the depth of the value, None where it has none, and whether it has no other depth."""
        if isinstance(value, list):
            return self.list_value(path, value)
        if isinstance(value, (str, int)) and not isinstance(value, bool):
            return 0, True
        self.tell(NOT_TEXT, path, *no_value(value))
        return None, False

    def list_value(self, path, value):
        kinds = set(map(type, value))
        if kinds <= {str, int}:
            return 1, bool(value)
        found = [(0, True) if type(it) is str else self.value((*path, at), it) for at, it in enumerate(value)]
        if any(depth is None for depth, _ in found):
            return None, False
        depths = sorted(set(found))
        exact = {depth for depth, is_exact in depths if is_exact}
        least = max(depth for depth, _ in depths)
        if exact and (len(exact) > 1 or least > min(exact)):
            self.ragged(path, value, found)
            return None, False
        return least + 1, bool(exact)

    def ragged(self, path, value, found):
        """A list whose items have no depth in common: the lone item among them is shown."""
        counts = {}
        for depth, _ in found:
            counts[depth] = counts.get(depth, 0) + 1
        lone = min(counts, key=lambda it: (counts[it], -it))
        at = next(index for index, (depth, _) in enumerate(found) if depth == lone)
        usual = max((it for it in counts if it != lone), default=lone, key=lambda it: counts[it])
        kinds = " and ".join(deep(it) for it in sorted(counts))
        mend = f"the item {at} of it is {deep_one(lone)}, the others are {deep(usual)}"
        if len(counts) > 2:
            mend = f"the items of a list are all equally deep: the item {at} of it is {deep_one(lone)}, most are {deep(usual)}"
        elif lone < usual:
            item = as_json(value[at], 40)
            mend += ": put it in a list of its own"
            if item and usual - lone < 4:
                mend += f", {'[' * (usual - lone)}{item}{']' * (usual - lone)}"
        elif lone > usual:
            mend += ": take its brackets out, or put the others in lists too"
        else:
            mend = "the items of a list are all equally deep"
        self.tell(RAGGED, path, f"a list with {kinds} in it", mend, (*path, at))


def shown(thing):
    return quoted(thing) if isinstance(thing, str) else kind_of(thing)


def deep(depth):
    return {0: "texts", 1: "lists of texts"}.get(depth, f"lists of depth {depth}")


def deep_one(depth):
    return {0: "a text", 1: "a list of texts"}.get(depth, f"a list of depth {depth}")


def no_value(thing):
    """What is wrong of a thing in a value that is none, and how to mend it."""
    rule = "where a text, a whole number or a list of these must stand"
    if isinstance(thing, Odd):
        if re.fullmatch(r"-?[0-9]+", thing.text) and thing.text != "-0":
            return f"the number {printable(cut(thing.text))} has more than 64 bits", "give it as a text, in double quotes"
        return f"the number {printable(cut(thing.text))} stands {rule}", f"write it as the text {quoted(thing.text)}, in double quotes"
    if isinstance(thing, bool):
        return f"{str(thing).lower()} stands {rule}", f'write it as the text "{str(thing).lower()}"'
    if thing is None:
        return f"null stands {rule}", 'write what is missing as a text, as "" or "NA"'
    mend = "data are texts and lists of texts: take its fields apart into inputs of their own"
    if thing.get("class") in ("File", "Directory"):
        mend = f"{words.NO_FILES}: give what the file has in it"
    return f"an object stands {rule}", mend


def other_document(thing):
    """How to mend an object that is plainly another thing than a document; None where nothing is known of it."""
    if "cwlVersion" in thing:
        return "this is a CWL document: flows, steps and links are written otherwise here, as in examples/gene_names.json"
    if "a_galaxy_workflow" in thing:
        return "this is a Galaxy workflow: write it anew as a document, as in examples/gene_names.json"
    if "nbformat" in thing:
        return "this is a notebook: a document is as in examples/gene_names.json"
    if set(thing) == {"outputs", "totals"}:
        return "this is what run prints, and no document"
    if "$schema" in thing and "$defs" in thing:
        return "this is a schema, and no document"
    if set(thing) == {"document", "changes"}:
        return 'a document alone stands here: take out what is in "document"'
    if thing and not {"taverna", "main", "flows"} & set(thing):
        if "steps" in thing or "outputs" in thing:
            return 'a flow alone? It stands by its name in "flows" of a document: {"taverna": 1, "main": "NAME", "flows": {"NAME": ..}}'
        if all(isinstance(it, (str, int, list)) for it in thing.values()):
            return 'values alone? They stand in "inputs" of a document, beside "taverna", "main" and "flows"'
    return None

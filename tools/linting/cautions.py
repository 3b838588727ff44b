"""Warnings: what the program accepts, and what then fails job by job or does other than was meant."""
import re

from linting.checks import feeds_of, flows_opened_by, inputs_of, kind_of_node, leaves_of, links_of, outputs_of, steps_of, strategy_of
from linting.findings import MOST_FOUND, WARNING, Finding, Findings, counted, quoted
from linting.services import ANY, PORT_WORDS, SERVICES, is_number
from linting.values import MOST_COUNTED, below, depth_of, parting, shape_of, together, top


def keys_that_stand_twice(document, text):
    """A warning for each key that stands several times in one object."""
    found, paths = Findings(), list(paths_of_keys_twice(document))
    for path, lines in zip(paths, text.lines_of_keys(paths[:MOST_FOUND])):
        often = "twice" if len(lines) == 2 else f"{len(lines)} times"
        what = f"the key {quoted(path[-1])} stands {often} in one object, and only the last one counts"
        mend = f"rename or take out the one{'s' * (len(lines) > 2)} in line {', '.join(str(it) for it in lines[:-1][:8])}"
        found.append(Finding(WARNING, what, mend, path, True))
    return found


def paths_of_keys_twice(thing, path=()):
    if isinstance(thing, dict):
        for key in getattr(thing, "twice", ()):
            yield (*path, key)
    parts = thing.items() if isinstance(thing, dict) else enumerate(thing)
    for part, it in parts:
        if isinstance(it, (dict, list)):
            yield from paths_of_keys_twice(it, (*path, part))


def steps_before_it(said):
    """The steps whose outputs a step takes."""
    return [link["step"] for feed in feeds_of(said) for _, link in links_of(feed) if "input" not in link]


class Cautions:
    """Goes through a document whose form is right. `found` has the warnings."""

    def __init__(self, checks):
        self.checks, self.flows, self.main, self.found = checks, checks.flows, checks.main, Findings()
        self.document = checks.document

    def tell(self, path, what, mend="", is_key=False):
        self.found.append(Finding(WARNING, what, mend, path, is_key))

    def all(self, is_whole):
        """All warnings; those of what isn't used only where `is_whole`, since names that aren't there would make more of them."""
        for name, flow in sorted(self.flows.items()):
            for step, said in sorted(steps_of(flow).items()):
                for at, activity in enumerate(said["activities"]):
                    if activity.get("service") in SERVICES:
                        Signature(self, name, step, at).all()
                self.retries(said, ("flows", name, "steps", step))
        if is_whole:
            self.unopened()
            for name, flow in sorted(self.flows.items()):
                self.unused(name, flow)
                Dots(self, name).all()

    def retries(self, said, path):
        services = [it.get("service") for it in said["activities"]]
        if said.get("retries") and all(it in SERVICES and it != "flaky" for it in services):
            mend = 'take "retries" out; another way is a second activity'
            self.tell((*path, "retries"), f"the retries change nothing: {quoted(services[0])} gives the same at each try", mend, True)

    # What isn't used

    def opened(self):
        """The flows that the main flow opens, itself among them."""
        seen, queue = {self.main}, [self.main]
        for name in queue:
            for said in steps_of(self.flows[name]).values():
                for other in flows_opened_by(said):
                    if other in self.flows and other not in seen:
                        seen.add(other)
                        queue.append(other)
        return seen

    def unopened(self):
        opened = self.opened()
        for name in sorted(set(self.flows) - opened):
            mend = f'take it out, or open it by an activity {{"flow": {quoted(name)}}}'
            self.tell(("flows", name), f"the flow {quoted(name)} is never opened", mend, True)

    def unused(self, name, flow):
        """Warns of steps that no output of the flow comes from, and of inputs of the main flow that nothing takes."""
        steps, path = steps_of(flow), ("flows", name)
        takes = {step: set(steps_before_it(said)) for step, said in steps.items()}
        sources = [link for feed in outputs_of(flow).values() for _, link in links_of(feed)]
        used = [it["step"] for it in sources if "input" not in it]
        used += [other for said in steps.values() for other in said.get("after", [])]
        seen = set(used)
        for step in used:
            for other in takes.get(step, ()):
                if other not in seen:
                    seen.add(other)
                    used.append(other)
        taken = set().union(*takes.values()) if takes else set()
        for step in sorted(set(steps) - seen):
            if step in taken:
                what = f"nothing of the step {quoted(step)} comes to an output: only steps that nothing uses take it"
            else:
                what = f"nothing uses what the step {quoted(step)} gives"
            self.tell((*path, "steps", step), what, "it runs for nothing: link it to an output of the flow, or take it out", True)
        if name == self.main:
            sources += [link for said in steps.values() for feed in feeds_of(said) for _, link in links_of(feed)]
            for port in sorted(set(inputs_of(flow)) - {it.get("input") for it in sources}):
                mend = "link it to a step or output, or take it out"
                self.tell((*path, "inputs", port), f"nothing takes the input {quoted(port)}", mend, True)


class Signature:
    """One service at one step: whether the step's ports are what the service takes and gives."""

    def __init__(self, cautions, flow, step, at):
        self.cautions, self.at = cautions, at
        self.path = ("flows", flow, "steps", step)
        self.step, self.said = step, steps_of(cautions.flows[flow])[step]
        self.name = self.said["activities"][at]["service"]
        self.service = SERVICES[self.name]
        self.ports = sorted(inputs_of(self.said))
        self.depths = [inputs_of(self.said)[it]["depth"] for it in self.ports]
        alone = len(self.said["activities"]) == 1
        self.outcome = "every job fails" if alone else "this activity fails in every job"

    def tell(self, what, mend, path=None, is_key=False):
        self.cautions.tell((*self.path, "activities", self.at, "service") if path is None else path, what, mend, is_key)

    def all(self):
        if len(self.ports) != len(self.service.takes):
            self.number_of_ports()
        else:
            wrong = [at for at, want in enumerate(self.service.takes) if want not in (ANY, self.depths[at])]
            if wrong:
                self.wrong_depths(wrong)
            else:
                self.order()
                self.constants()
        self.output()

    def wants(self):
        return ", ".join("any" if it is ANY else str(it) for it in self.service.takes)

    def number_of_ports(self):
        number = len(self.service.takes)
        what = (
            f"{quoted(self.name)} takes {counted(number, 'input')}, and the step {quoted(self.step)} has "
            f"{counted(len(self.ports), 'input port')}: {self.outcome}"
        )
        roles = f" ({', '.join(self.service.roles)})" if self.service.roles else ""
        mend = f"give it {counted(number, 'port')} of depth {self.wants()}{roles}"
        if len(self.ports) > number and self.name in ("concat", "join"):
            mend += '; several texts go together by a "merge" at one port of "join"'
        elif len(self.ports) > number and self.service.takes[0] in (1, 2):
            mend += '; several links go together by a "merge" at one port'
        self.tell(what, mend)

    def wrong_depths(self, wrong):
        at = wrong[0]
        port, depth, want = self.ports[at], self.depths[at], self.service.takes[at]
        order = "ports go to a service in byte order of their names"
        if len(self.ports) == 2 and self.depths[::-1] == list(self.service.takes):
            first, second = self.ports[1], self.ports[0]
            what = (
                f"the ports of {quoted(self.name)} are in the wrong order: {order}, so {quoted(self.ports[0])} comes first, "
                f"and it wants depths {self.wants()}: {self.outcome}"
            )
            mend = f"rename them so that {quoted(first)} comes first, as {quoted('a_' + first)} and {quoted('b_' + second)}"
            self.tell(what, mend, (*self.path, "inputs", self.ports[0]), True)
            return
        for at in wrong:
            port, depth, want = self.ports[at], self.depths[at], self.service.takes[at]
            what = (
                f"input {at + 1} of {quoted(self.name)} is the port {quoted(port)} of depth {depth}, and {quoted(self.name)} wants "
                f"depth {want} there: {self.outcome}"
            )
            then = "the step iterates over the list" if depth > want else "it takes a list whole"
            mend = f"declare depth {want}, and {then}"
            if len(self.ports) > 1:
                mend += f" ({order}: {', '.join(self.ports)})"
            self.tell(what, mend, (*self.path, "inputs", port, "depth"))

    def order(self):
        """Warns where the ports are written in another order than that in which they go to the service, or are named so."""
        if not self.service.is_ordered or len(self.ports) != 2:
            return
        first, second = self.ports
        roles = f"{self.service.roles[0]} is {quoted(first)}, {self.service.roles[1]} {quoted(second)}"
        order = f"ports go to {quoted(self.name)} in byte order of their names, so {roles}"
        rename = f"rename them, as {quoted('a_' + second)} and {quoted('b_' + first)}"
        if list(inputs_of(self.said)) == [second, first]:
            what = f"the ports are written in another order than they are taken: {order}"
            self.tell(what, f"is that meant? Write them in this order; else {rename}", (*self.path, "inputs", second), True)
        elif self.are_named_otherwise() or self.is_fixed_first(first, second):
            what = f"the ports seem to be in the wrong order: {order}"
            self.tell(what, f"is that meant? Else {rename}", (*self.path, "inputs", first), True)

    def are_named_otherwise(self):
        """Whether the first port has a word of the second input in its name, or the other way round, and the other port doesn't."""
        if self.name not in PORT_WORDS:
            return False
        of_first, of_second = PORT_WORDS[self.name]
        parts = [set(re.split(r"_|\d", it.lower())) for it in self.ports]
        leans = [bool(it & of_second) - bool(it & of_first) for it in parts]
        return leans[0] > leans[1]

    def is_fixed_first(self, first, second):
        """A split of a constant by what comes from elsewhere."""
        feeds = [inputs_of(self.said)[it]["from"] for it in (first, second)]
        return self.name == "split" and "constant" in feeds[0] and "constant" not in feeds[1]

    def constants(self):
        """Warns of constants that the service refuses always."""
        for at, port in enumerate(self.ports):
            feed = inputs_of(self.said)[port]["from"]
            if "constant" not in feed or isinstance(feed["constant"], list):
                continue
            text, refused = str(feed["constant"]), None
            if at in self.service.numbers and not is_number(text):
                refused = "which is no number", "give it a number, as 1"
            elif (self.name, at, text) == ("split", 1, ""):
                refused = "and a separator must not be empty", 'give it a text, as ","'
            elif self.name == "take" and at == 1 and text.startswith("-") and text.strip("-0"):
                refused = "and a number of items is not negative", "give it 0 or more"
            elif (self.name, text) == ("fail_if", "true"):
                refused = 'for which "fail_if" always fails', "link what is to be tested"
            if refused:
                what = f"the port {quoted(port)} of {quoted(self.name)} is always {quoted(text)}, {refused[0]}: {self.outcome}"
                self.tell(what, refused[1], (*self.path, "inputs", port, "from", "constant"))

    def output(self):
        ports = sorted(outputs_of(self.said))
        if len(ports) != 1:
            has = counted(len(ports), "output port")
            what = f"{quoted(self.name)} gives one value, and the step {quoted(self.step)} has {has}: {self.outcome}"
            mend = "take out all but one; several links may begin at one output"
            self.tell(what, mend if ports else f'add "outputs": {{"o": {self.gives() or 0}}}')
            return
        declared, gives = outputs_of(self.said)[ports[0]], self.gives()
        if gives is not None and declared != gives:
            what = f"{quoted(self.name)} gives depth {gives}, and the output {quoted(ports[0])} declares depth {declared}: {self.outcome}"
            mend = f"declare depth {gives}; the levels over which a step iterates come to it by themselves"
            self.tell(what, mend, (*self.path, "outputs", ports[0]))

    def gives(self):
        if self.service.gives is not ANY:
            return self.service.gives
        return self.depths[0] if len(self.depths) == 1 else None


class Dots:
    """The dots of one flow whose children have different lengths, as far as given values and constants tell."""

    def __init__(self, cautions, name):
        self.cautions, self.checks, self.name = cautions, cautions.checks, name
        self.flow = cautions.flows[name]
        self.shapes = {}  # of each step the shape over which it iterates, None where it isn't known
        self.counted = 0

    def all(self):
        trees = [said.get("strategy", {}) for said in steps_of(self.flow).values()]
        if not any("dot" in path for tree in trees if tree for path, _ in leaves_of(tree)):
            return
        for step in self.checks.ranked[self.name]:
            said = steps_of(self.flow)[step]
            path = ("flows", self.name, "steps", step, "strategy")
            ports = {}
            for port, fed in inputs_of(said).items():
                delivered = self.checks.delivered.get((self.name, step, port))
                if delivered is None:
                    return
                levels = max(0, delivered - fed["depth"])
                ports[port] = top(self.feed(fed["from"], delivered), delivered, levels), levels
            self.shapes[step] = self.tree(strategy_of(said), ports, path)[0]

    def feed(self, feed, levels):
        """The shape that a feed delivers, down to all its levels."""
        if "constant" in feed:
            return self.known(feed["constant"], levels)
        found = [self.link(link, levels - ("merge" in feed)) for _, link in links_of(feed)]
        if "merge" not in feed:
            return found[0]
        return len(found) if levels == 1 else found

    def link(self, link, levels):
        if levels == 0:
            return None
        if "input" in link:
            given = inputs_of(self.cautions.document)
            if self.name != self.cautions.main or link["input"] not in given:
                return None
            return self.known(given[link["input"]], levels)
        iterated = self.checks.iterated.get((self.name, link["step"]))
        shape = self.shapes.get(link["step"])
        return below(shape, iterated, None, levels - iterated) if iterated and shape is not None else None

    def known(self, value, levels):
        self.counted += 1
        is_great = isinstance(value, list) and (len(value) > MOST_COUNTED or self.counted > 1000)
        return None if is_great or depth_of(value)[0] > levels else shape_of(value, levels)

    def tree(self, tree, ports, path):
        """The shape of a strategy and its levels; warns of dots that are cut."""
        if isinstance(tree, str):
            return ports[tree]
        kind = kind_of_node(tree)
        found = [self.tree(it, ports, (*path, kind, at)) for at, it in enumerate(tree[kind])]
        if not found:
            return None, 0
        if kind == "prefix":
            # (how much of the right is left out isn't told)
            return None, found[1][1]
        shape, levels = found[0]
        for at, (other, more) in enumerate(found[1:], 1):
            if kind == "cross":
                if levels and more and (shape is None or other is None or size(shape) * size(other) > MOST_COUNTED):
                    shape = None
                else:
                    shape = below(shape, levels, other, more)
                levels += more
                continue
            parts = parting(shape, other) if levels else None
            if parts:
                place, one, two = parts
                where = f" at {list(place)}" if place else ""
                names = [", ".join(leaf for _, leaf in leaves_of(it)) for it in (tree[kind][0], tree[kind][at])]
                lengths = f"{quoted(names[0])} has {counted(one, 'item')} there and {quoted(names[1])} has {two}"
                what = f"this dot is always cut{where}: {lengths}"
                mend = f"the {abs(one - two)} over have no partner and are left out: give both equally many items, or take a cross"
                self.cautions.tell((*path, kind), what, mend, True)
                return None, levels
            shape = together(shape, other)
        return shape, levels


def size(shape):
    """How many lists and elements a shape has."""
    if shape is None:
        return 1
    return shape if isinstance(shape, int) else sum(map(size, shape)) + 1

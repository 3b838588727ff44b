"""What the check complains of: names, rounds, depths and given values. All complaints, with the line that the program has for each."""
import heapq

from linting import words
from linting.findings import CHECK, Finding, Findings, as_json, listed, quoted
from linting.form import MOST_DEPTH
from linting.services import SERVICES
from linting.values import depth_of, has_depth

NO_PORT, NO_SERVICE, NO_FLOW, FLOW_CYCLE, LINK_CYCLE, STRATEGY_PORTS, DOT_DEPTHS, MERGE_DEPTHS, NESTED_PORTS = range(1, 10)
TOO_DEEP, INPUT_MISSING, INPUT_UNKNOWN, INPUT_DEPTH, LOOP_NESTED, LOOP_DEPTHS, PREFIX_DEPTHS = range(10, 17)
WORDS = (
    "no such port",
    "no such service",
    "no such flow",
    "flow cycle",
    "link cycle",
    "strategy ports",
    "dot depths",
    "merge depths",
    "nested ports",
    "too deep",
    "input missing",
    "input unknown",
    "input depth",
    "loop nested",
    "loop depths",
    "prefix depths",
)
MOST_FLOWS_DEEP = 8


def inputs_of(thing):
    return thing.get("inputs", {})


def outputs_of(thing):
    return thing.get("outputs", {})


def steps_of(flow):
    return flow.get("steps", {})


def links_of(feed):
    """The links of a feed, each with its path in the feed; none of a constant."""
    if "merge" in feed:
        return [(("merge", at), link) for at, link in enumerate(feed["merge"])]
    return [] if "constant" in feed else [((), feed)]


def feeds_of(step):
    return [port["from"] for _, port in sorted(inputs_of(step).items())]


def flows_opened_by(step):
    return [it["flow"] for it in step["activities"] if "flow" in it and "service" not in it]


def kind_of_node(tree):
    return next(it for it in ("cross", "dot", "prefix") if it in tree)


def leaves_of(tree, path=()):
    """The leaves of a strategy, each with its path in it."""
    if isinstance(tree, str):
        return [(path, tree)]
    kind = kind_of_node(tree)
    return [leaf for at, it in enumerate(tree[kind]) for leaf in leaves_of(it, (*path, kind, at))]


def strategy_of(step):
    """A step's strategy; the default cross where it has none, and None where there is no port to iterate."""
    return step.get("strategy", {"cross": sorted(inputs_of(step))})


def shortened(said, most=16):
    """The parts of a round; of a long one so many, and how many are left out before the last."""
    return said if len(said) <= most else [*said[: most - 1], f"{len(said) - most} more", said[-1]]


class Checks:
    """Goes through a document whose form is right. `found` has the complaints, in the program's order but for ones behind the first."""

    def __init__(self, document, nearest):
        self.document, self.nearest, self.found = document, nearest, Findings()
        self.flows, self.main = document["flows"], document["main"]
        self.before = {name: steps_before(flow) for name, flow in self.flows.items()}
        self.ranked = {name: ranks(before) for name, before in self.before.items()}
        self.nesting = {}
        self.iterated = {}  # the depth of each step's strategy, None where it isn't known
        self.delivered = {}  # the delivered depth of each input port and flow output, None where it isn't known

    def tell(self, fault, spot, what, mend, path, numbers=None, is_key=False):
        said = f"taverna: check fault {fault} {WORDS[fault - 1]} at {spot}"
        if numbers:
            said += f": {numbers[0]} and {numbers[1]}"
        self.found.append(Finding(CHECK, what, mend, path, is_key, said=said))

    def all(self):
        self.names()
        self.rounds()
        for name in sorted(self.nesting, key=lambda it: (self.nesting[it], it)):
            FlowDepths(self, name).all()
        self.given()

    # Names

    def names(self):
        if self.main not in self.flows:
            mend = self.nearest.choice(self.main, self.flows, "flows")
            self.tell(NO_FLOW, "main", f"there is no flow {quoted(self.main)}, which is to run", mend, ("main",))
        for name, flow in sorted(self.flows.items()):
            for step, said in sorted(steps_of(flow).items()):
                self.step_names(name, flow, step, said)
            for port, feed in sorted(outputs_of(flow).items()):
                self.link_names(flow, feed, ("flows", name, "outputs", port), f"flow {name} output {port}")

    def step_names(self, name, flow, step, said):
        path, spot = ("flows", name, "steps", step), f"flow {name} step {step}"
        for port, fed in sorted(inputs_of(said).items()):
            self.link_names(flow, fed["from"], (*path, "inputs", port, "from"), f"{spot} input {port}")
        if "strategy" in said:
            self.strategy_ports(said, step, path, spot)
        for at, activity in enumerate(said["activities"]):
            here = (*path, "activities", at)
            if "service" in activity and activity["service"] not in SERVICES:
                mend = self.service_meant(activity["service"])
                what = f"there is no service {quoted(activity['service'])}"
                self.tell(NO_SERVICE, f"{spot} activity {at}", what, mend, (*here, "service"))
            elif "service" not in activity and activity["flow"] not in self.flows:
                mend = self.nearest.choice(activity["flow"], self.flows, "flows")
                if activity["flow"] in SERVICES:
                    mend = f'that is a service: write {{"service": {quoted(activity["flow"])}}}'
                self.tell(NO_FLOW, f"{spot} activity {at}", f"there is no flow {quoted(activity['flow'])}", mend, (*here, "flow"))
        if "loop" in said:
            self.loop_names(said, path, spot)
        after = said.get("after", [])
        for at, other in enumerate(sorted(set(after))):
            if other not in steps_of(flow):
                mend = self.nearest.choice(other, [it for it in steps_of(flow) if it != step], "other steps of the flow")
                what, place = f"there is no step {quoted(other)} to run after", (*path, "after", after.index(other))
                self.tell(NO_PORT, f"{spot} after {at}", what, mend, place)

    def loop_names(self, said, path, spot):
        """Tells a condition that is no service, and a flow beside a loop."""
        condition = said["loop"]["service"]
        if condition not in SERVICES:
            mend = self.service_meant(condition)
            self.tell(NO_SERVICE, f"{spot} loop", f"there is no service {quoted(condition)}", mend, (*path, "loop", "service"))
        if flows_opened_by(said):
            at = next(at for at, it in enumerate(said["activities"]) if "service" not in it)
            what = "a step with a loop opens a flow"
            mend = "take the loop out, or put it at a step of that flow: only services go round"
            self.tell(LOOP_NESTED, f"{spot} loop", what, mend, (*path, "activities", at))

    def service_meant(self, name):
        """How to mend a service that isn't there."""
        here = words.SERVICE_HERE.get(words.folded(name))
        if here:
            return f"here it is {quoted(here)}"
        if name in self.flows:
            return f'that is a flow: write {{"flow": {quoted(name)}}}'
        if words.folded(name) in words.PROGRAMS:
            return f"{words.NO_PROGRAMS}. The services: {listed(sorted(SERVICES), 18)}"
        near, is_likely = self.nearest.first(name, SERVICES)
        return (f"did you mean {quoted(near[0])}? The services, nearest first: " if is_likely else "the services: ") + listed(near, 18)

    def link_names(self, flow, feed, path, spot):
        for at, link in links_of(feed):
            here = (*path, *at)
            if "input" in link:
                if link["input"] not in inputs_of(flow):
                    mend = self.input_meant(flow, link["input"])
                    self.tell(NO_PORT, spot, f"the flow has no input {quoted(link['input'])}", mend, (*here, "input"))
            elif link["step"] not in steps_of(flow):
                mend = self.nearest.choice(link["step"], steps_of(flow), "steps of the flow")
                if link["step"] in inputs_of(flow):
                    mend = f'that is an input of the flow: write {{"input": {quoted(link["step"])}}}'
                self.tell(NO_PORT, spot, f"the flow has no step {quoted(link['step'])}", mend, (*here, "step"))
            elif link["port"] not in outputs_of(steps_of(flow)[link["step"]]):
                said = steps_of(flow)[link["step"]]
                mend = self.nearest.choice(link["port"], outputs_of(said), f"outputs of {quoted(link['step'])}")
                if link["port"] in inputs_of(said):
                    mend = f"that is an input port of it; {mend}"
                what = f"the step {quoted(link['step'])} has no output {quoted(link['port'])}"
                self.tell(NO_PORT, spot, what, mend, (*here, "port"))

    def input_meant(self, flow, name):
        """How to mend a link from a flow input that isn't there."""
        if name in steps_of(flow):
            outputs = sorted(outputs_of(steps_of(flow)[name]))
            port = outputs[0] if outputs else "PORT"
            return f"that is a step: write {as_json({'step': name, 'port': port}, 200)}"
        mend = self.nearest.choice(name, inputs_of(flow), "inputs of the flow")
        if name in inputs_of(self.document) and not mend.startswith("did"):
            depth = depth_of(inputs_of(self.document)[name])[0]
            mend = f'a value is given for it: add {quoted(name)}: {depth} to the "inputs" of the flow'
        return mend

    def strategy_ports(self, said, step, path, spot):
        """Tells which ports a strategy leaves out, and which are too many in it."""
        ports, leaves, seen = inputs_of(said), leaves_of(said["strategy"]), set()
        left = sorted(set(ports) - {leaf for _, leaf in leaves})
        for at, leaf in leaves:
            here = (*path, "strategy", *at)
            if leaf not in ports:
                mend = self.nearest.choice(leaf, left or ports, "ports that it leaves out" if left else f"ports of {quoted(step)}")
                kind = leaf if leaf in ("cross", "dot", "prefix") else words.foreign(leaf, ("cross", "dot"))[2]
                if kind == "prefix" and (self.document["taverna"] == 1 or len(ports) != 2):
                    mend = "a strategy is a tree of ports: a prefix node stands in format 2, over two trees"
                elif kind:
                    mend = f"a strategy is a tree of ports: write {as_json({kind: sorted(ports)}, 200)}"
                what = f"the strategy names {quoted(leaf)}, which is no input port of {quoted(step)}"
                self.tell(STRATEGY_PORTS, spot, what, mend, here)
            elif leaf in seen:
                what = f"the strategy names the port {quoted(leaf)} again"
                self.tell(STRATEGY_PORTS, spot, what, "each port stands once: take one out", here)
            seen.add(leaf)
        for port in left:
            mend = "each input port stands once, also one that doesn't iterate"
            if all(leaf in ports for _, leaf in leaves):
                mend += f", as {as_json({'cross': [said['strategy'], *left]}, 200)}"
            self.tell(STRATEGY_PORTS, spot, f"the strategy leaves out the port {quoted(port)}", mend, (*path, "strategy"), is_key=True)

    # Rounds

    def rounds(self):
        opens = {}
        for name, flow in sorted(self.flows.items()):
            opens[name] = {}
            for step, said in sorted(steps_of(flow).items()):
                for other in flows_opened_by(said):
                    if other in self.flows:
                        opens[name].setdefault(other, step)
        for way in rounds(opens):
            told = [f"the step {quoted(opens[one][other])} of {quoted(one)} opens {quoted(other)}" for one, other in zip(way, way[1:])]
            what = f"flows open one another in a round: {', '.join(shortened(told))}"
            path = ("flows", way[0], "steps", opens[way[0]][way[1]])
            self.tell(FLOW_CYCLE, f"flow {way[0]}", what, "a flow can't open itself: take one out", path, is_key=True)
        self.nesting = nestings(opens)
        for name in sorted(self.nesting):
            if self.nesting[name] > MOST_FLOWS_DEEP:
                way = deepest(opens, self.nesting, name)
                what = f"flows are nested {self.nesting[name]} deep: " + " opens ".join(quoted(it) for it in way)
                numbers = self.nesting[name], MOST_FLOWS_DEEP
                self.tell(TOO_DEEP, f"flow {name}", what, f"{MOST_FLOWS_DEEP} is the limit", ("flows", name), numbers, True)
                break
        for name in sorted(self.flows):
            for way in rounds(self.before[name]):
                why = self.before[name]
                reasons = [f"{quoted(one)} waits for {quoted(other)} ({why[one][other]})" for one, other in zip(way, way[1:])]
                path = ("flows", name, "steps", way[0])
                what = f"steps of {quoted(name)} wait for one another in a round: {', '.join(shortened(reasons))}"
                self.tell(LINK_CYCLE, f"flow {name} step {way[0]}", what, 'take out a link or a name of "after"', path, is_key=True)

    # Given values

    def given(self):
        if self.main not in self.flows:
            return
        wants, has = inputs_of(self.flows[self.main]), inputs_of(self.document)
        for name in sorted(set(wants) - set(has)):
            value = ('"text"', '["text", "text"]', '[["text"], ["text"]]')[min(wants[name], 2)]
            near, is_likely = self.nearest.first(name, set(has) - set(wants))
            mend = f'add {quoted(name)}: {value} to the document\'s "inputs"'
            if is_likely:
                mend = f"did you mean {quoted(near[0])} by it, which is given?"
            what = f"the input {quoted(name)} of {quoted(self.main)} is given no value"
            place = ("inputs",) if "inputs" in self.document else ("flows", self.main, "inputs", name)
            self.tell(INPUT_MISSING, f"input {name}", what, mend, place, is_key=True)
        for name in sorted(set(has) - set(wants)):
            mend = self.nearest.choice(name, set(wants) - set(has) or wants, f"inputs of {quoted(self.main)}" +
                                       (" without a value" if set(wants) - set(has) else ""))
            what = f"a value is given for {quoted(name)}, which is no input of {quoted(self.main)}"
            self.tell(INPUT_UNKNOWN, f"input {name}", what, mend, ("inputs", name), is_key=True)
        for name in sorted(set(has) & set(wants)):
            if not has_depth(has[name], wants[name]):
                self.wrong_depth(name, has[name], wants[name])

    def wrong_depth(self, name, value, wanted):
        least = depth_of(value)[0]
        what = f"the value of {quoted(name)} has depth {least}, and {quoted(self.main)} declares depth {wanted}"
        if least > wanted:
            mend = f"declare depth {least} there, {quoted(name)}: {least}, and steps iterate over it; or give {a_value(wanted)}"
        else:
            mend = f"give {a_value(wanted)}, or declare {quoted(name)}: {least}"
        self.tell(INPUT_DEPTH, f"input {name}", what, mend, ("inputs", name), (wanted, least))


def a_value(depth):
    return {0: "a text", 1: 'a list, as ["a", "b"]', 2: 'a list of lists, as [["a"], ["b"]]'}.get(depth, f"a list of depth {depth}")


class FlowDepths:
    """The depths in one flow, whose inner flows were gone through before."""

    def __init__(self, checks, name):
        self.checks, self.name, self.flow = checks, name, checks.flows[name]

    def tell(self, *said, **more):
        self.checks.tell(*said, **more)

    def all(self):
        for step in self.checks.ranked[self.name]:
            self.step(step, steps_of(self.flow)[step])
        for port, feed in sorted(outputs_of(self.flow).items()):
            spot, path = f"flow {self.name} output {port}", ("flows", self.name, "outputs", port)
            self.checks.delivered[self.name, port] = self.feed_depth(feed, path, spot)

    def link_depth(self, link):
        """The depth that a link delivers; None where it isn't known."""
        if "input" in link:
            return inputs_of(self.flow).get(link["input"])
        iterated = self.checks.iterated.get((self.name, link["step"]))
        declared = outputs_of(steps_of(self.flow).get(link["step"], {})).get(link["port"])
        return None if None in (iterated, declared) else iterated + declared

    def feed_depth(self, feed, path, spot):
        """The depth that a feed delivers; None where it isn't known or is refused."""
        if "constant" in feed:
            depth = depth_of(feed["constant"])[0]
        else:
            found = [self.link_depth(link) for _, link in links_of(feed)]
            for at, it in enumerate(found):
                if None not in (it, found[0]) and it != found[0]:
                    told = f"the links of a merge deliver different depths: link 0 has {found[0]} and link {at} has {it}"
                    most = max(it, found[0])
                    mend = "all links of a merge are equally deep"
                    mend += f'; a step with "echo" whose ports declare depth {most} makes lists of one of the lesser'
                    self.tell(MERGE_DEPTHS, spot, told, mend, (*path, "merge", at), (found[0], it))
                    return None
            if None in found:
                return None
            depth = found[0] + ("merge" in feed)
        if depth > MOST_DEPTH:
            what = f"lists nested {depth} deep are delivered here"
            self.tell(TOO_DEEP, spot, what, f"{MOST_DEPTH} is the limit", path, (depth, MOST_DEPTH))
            return None
        return depth

    def step(self, step, said):
        path, spot = ("flows", self.name, "steps", step), f"flow {self.name} step {step}"
        walked = {}
        for port, fed in sorted(inputs_of(said).items()):
            depth = self.feed_depth(fed["from"], (*path, "inputs", port, "from"), f"{spot} input {port}")
            self.checks.delivered[self.name, step, port] = depth
            walked[port] = None if depth is None else max(0, depth - fed["depth"])
        leaves = sorted(leaf for _, leaf in leaves_of(strategy_of(said)))
        iterated = None
        if leaves == sorted(walked):
            iterated = self.tree_depth(strategy_of(said), walked, (*path, "strategy"), spot)
        self.checks.iterated[self.name, step] = iterated
        for port, declared in sorted(outputs_of(said).items()):
            if iterated is not None and declared + iterated > MOST_DEPTH:
                what = f"lists nested {declared + iterated} deep come from here ({declared} declared, {iterated} iterated)"
                self.tell(TOO_DEEP, f"{spot} output {port}", what, f"{MOST_DEPTH} is the limit", (*path, "outputs", port),
                          (declared + iterated, MOST_DEPTH), True)
        for at, activity in enumerate(said["activities"]):
            if "service" not in activity and activity["flow"] in self.checks.nesting:
                self.nested(said, activity["flow"], (*path, "activities", at), f"{spot} activity {at}")
        if "loop" in said:
            self.rounds(said, path, spot)

    def rounds(self, said, path, spot):
        """Tells the first output of a step with a loop that can't be the next round's input of its name."""
        for port, declared in sorted(outputs_of(said).items()):
            taken = inputs_of(said).get(port)
            if taken is not None and taken["depth"] != declared:
                what = f"the input {quoted(port)} has depth {taken['depth']} and the output {quoted(port)}, the next round's input, {declared}"
                mend = "declare one depth for both, or give the output another name"
                self.tell(LOOP_DEPTHS, f"{spot} loop", what, mend, (*path, "outputs", port), (taken["depth"], declared), True)
                return

    def tree_depth(self, tree, walked, path, spot):
        if isinstance(tree, str):
            return walked[tree]
        kind = kind_of_node(tree)
        found = [self.tree_depth(it, walked, (*path, kind, at), spot) for at, it in enumerate(tree[kind])]
        if kind == "dot":
            other = next((it for it in found if None not in (it, found[0]) and it != found[0]), None)
            if other is not None:
                levels = ", ".join(f"{shown_tree(it)} over {depth}" for it, depth in zip(tree[kind], found))
                what = f"the children of a dot iterate over different numbers of levels: {levels}"
                self.tell(DOT_DEPTHS, spot, what, dot_mended(tree[kind], found), (*path, kind), (found[0], other), True)
                return None
        if None in found:
            return None
        if kind == "prefix":
            left, right = found
            if right < left:
                what = f"the right of a prefix node iterates over {right} levels and the left over {left}"
                mend = "each left element takes those on the right below its own place: the right is as deep, or deeper"
                self.tell(PREFIX_DEPTHS, spot, what, mend, (*path, kind), (left, right), True)
                return None
            return right
        return sum(found) if kind == "cross" else found[0]

    def nested(self, said, inner, path, spot):
        """Tells which ports of a step aren't those of the flow that it opens."""
        flow = self.checks.flows[inner]
        has = {port: it["depth"] for port, it in inputs_of(said).items()}
        self.same_ports("input", has, inputs_of(flow), inner, path, spot)
        gives = {port: self.checks.delivered.get((inner, port)) for port in outputs_of(flow)}
        self.same_ports("output", outputs_of(said), gives, inner, path, spot)

    def same_ports(self, kind, has, wants, inner, path, spot):
        here = (*path, "flow")
        for port in sorted(set(has) | set(wants)):
            if port not in wants:
                mend = self.checks.nearest.choice(port, set(wants) - set(has) or wants, f"{kind}s of {quoted(inner)}")
                what = f"the step has the {kind} {quoted(port)}, and the flow {quoted(inner)} has none"
                self.tell(NESTED_PORTS, spot, what, mend, here)
            elif port not in has:
                near, is_likely = self.checks.nearest.first(port, set(has) - set(wants))
                mend = f"give the step the {kind} {quoted(port)}, or take it out of the flow"
                if is_likely:
                    mend = f"the step's {quoted(near[0])} may be meant"
                what = f"the flow {quoted(inner)} has the {kind} {quoted(port)}, and the step has none"
                self.tell(NESTED_PORTS, spot, what, mend, here)
            elif wants[port] is not None and has[port] != wants[port]:
                what = f"the {kind} {quoted(port)} has depth {has[port]} in the step and {wants[port]} in the flow {quoted(inner)}"
                mend = f"declare depth {wants[port]} in the step: each job opens the flow on what its ports declare"
                self.tell(NESTED_PORTS, spot, what, mend, here)


def shown_tree(tree):
    if isinstance(tree, str):
        return quoted(tree)
    kind = kind_of_node(tree)
    return f"{kind} of {', '.join(shown_tree(it) for it in tree[kind])}"


def dot_mended(children, found):
    """How to mend a dot whose children iterate over different numbers of levels."""
    if 0 in found and len({it for it in found if it}) == 1:
        walk = [it for it, depth in zip(children, found) if depth]
        stay = [it for it, depth in zip(children, found) if depth == 0]
        tree = {"cross": [{"dot": walk} if len(walk) > 1 else walk[0], *stay]}
        return f"what iterates over 0 levels stands beside the dot: {as_json(tree, 200)}"
    return "a dot takes together what is equally deep; a cross takes each with each"


# Graphs: for each node the nodes that it leads to, each with the reason.


def steps_before(flow):
    """For each step the steps that come before it, each with why."""
    found = {}
    for step, said in sorted(steps_of(flow).items()):
        found[step] = {}
        for port, fed in sorted(inputs_of(said).items()):
            for _, link in links_of(fed["from"]):
                if "input" not in link and link["step"] in steps_of(flow):
                    found[step].setdefault(link["step"], f"input {quoted(port)}")
        for other in said.get("after", []):
            if other in steps_of(flow):
                found[step].setdefault(other, "after")
    return found


def ranks(before):
    """The steps by rank: again and again the one with the least name of those whose earlier steps are all taken."""
    waits = {step: len(others) for step, others in before.items()}
    behind = {step: [] for step in before}
    for step, others in before.items():
        for other in others:
            behind[other].append(step)
    ready, order = [it for it, number in waits.items() if not number], []
    heapq.heapify(ready)
    while ready:
        step = heapq.heappop(ready)
        order.append(step)
        for it in behind[step]:
            waits[it] -= 1
            if not waits[it]:
                heapq.heappush(ready, it)
    return order


def rounds(graph):
    """One round for each knot of nodes that lead to one another: a shortest one from its least node, which ends it too."""
    knots = set(graph) - set(ranks(graph)) - set(ranks(turned(graph)))
    graph = {node: {it: why for it, why in others.items() if it in knots} for node, others in graph.items() if node in knots}
    taken, found = set(), []
    for node in sorted(graph):
        if node in taken:
            continue
        way = shortest_round(graph, node)
        if way:
            found.append(way)
            ahead, behind = reached(graph, node), reached(turned(graph), node)
            taken |= ahead & behind
    return found


def shortest_round(graph, node):
    came, queue = {}, [node]
    for one in queue:
        for other in sorted(graph[one]):
            if other == node:
                way = [one]
                while way[-1] != node:
                    way.append(came[way[-1]])
                return [*reversed(way), node]
            if other not in came:
                came[other] = one
                queue.append(other)
    return None


def turned(graph):
    made = {node: {} for node in graph}
    for node, others in graph.items():
        for other in others:
            made[other][node] = True
    return made


def reached(graph, node):
    seen, queue = {node}, [node]
    for one in queue:
        for other in graph[one]:
            if other not in seen:
                seen.add(other)
                queue.append(other)
    return seen


def nestings(opens):
    """How deep each flow nests, for those that lead to no round."""
    found = {}
    for name in ranks(opens):
        found[name] = 1 + max((found[it] for it in opens[name]), default=0)
    return found


def deepest(opens, nesting, name):
    way = [name]
    while opens[way[-1]]:
        way.append(max(sorted(opens[way[-1]]), key=lambda it: nesting[it]))
    return way

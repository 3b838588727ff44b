"""One instance of a flow, worked out plainly: by finished nested lists, whole iterations and sets of what they come from.

An `Instance` is made of a flow, the values of its inputs and all results that its jobs give. It knows nothing of order. `Told` is such
an instance after some events, and answers from the sets of what has happened. Nothing here is taken from the engine's code.

A value is a text, a list of values, or an error document `{"error":{..}}`. Inside, a value is a tree of nodes, each with its origin:
None (an input, a constant, a merge or a wrapping), `("job", step, place)`, or `("level", step, place)` for a list or passed fault of a
step's iteration. A node may have a mark of what it was made of, `("given", input, place)` or `("job", step, place)`. A place is a tuple
of indices, and a step is its name.
"""
from itertools import chain


class Node:
    """A node of a value: what it is, what it came from, and its mark."""

    def __init__(self, origin, value, mark=None):
        self.origin = origin
        self.value = value  # a text, a list of nodes, or an error document
        self.mark = mark

    def inside(self):
        """The origins of this node and of all nodes inside."""
        return {self.origin}.union(*(item.inside() for item in self.value)) if isinstance(self.value, list) else {self.origin}

    def used(self):
        """The marks that it was made of: its own, or else those of its items."""
        if self.mark is not None:
            return {self.mark}
        return set().union(*(item.used() for item in self.value)) if isinstance(self.value, list) else set()

    def plain(self):
        return [item.plain() for item in self.value] if isinstance(self.value, list) else self.value

    def holds_fault(self):
        return isinstance(self.value, dict) or (isinstance(self.value, list) and any(item.holds_fault() for item in self.value))


def nodes(origin, value):
    """A value of which every node has this origin, and is marked by it."""
    return Node(origin, [nodes(origin, item) for item in value] if isinstance(value, list) else value, origin)


def given(name, value, place=()):
    """A value of an input, of which every node is marked by its place."""
    items = [given(name, item, place + (at,)) for at, item in enumerate(value)] if isinstance(value, list) else value
    return Node(None, items, ("given", name, place))


class End:
    """An end of an iteration: one value for each port."""

    def __init__(self, binding):
        self.binding = binding


class Stop:
    """A fault that is passed, with its mark."""

    def __init__(self, document, sources, mark):
        self.document = document
        self.sources = sources
        self.mark = mark


class Level:
    """A list of an iteration."""

    def __init__(self, items, sources):
        self.items = items
        self.sources = sources


def leaf(port, levels, node):
    """The iteration of one port: its outer levels are walked."""
    if levels == 0:
        return End({port: node})
    if isinstance(node.value, list):
        return Level([leaf(port, levels - 1, item) for item in node.value], {node.origin})
    assert isinstance(node.value, dict), "a text is walked"
    return Stop(node.value, {node.origin}, node.mark)


def graft(first, rest):
    """The first child of a cross with that of the others at each of its ends."""
    if isinstance(first, End):
        return below(first, rest)
    if isinstance(first, Stop):
        return first
    return Level([graft(item, rest) for item in first.items], first.sources)


def below(end, iteration):
    """An iteration below an end."""
    return added(iteration, end.binding, set().union(*(node.inside() for node in end.binding.values())))


def added(iteration, binding, sources):
    """An iteration below an outer binding."""
    if isinstance(iteration, End):
        return End({**binding, **iteration.binding})
    if isinstance(iteration, Stop):
        return Stop(iteration.document, iteration.sources | sources, iteration.mark)
    return Level([added(item, binding, sources) for item in iteration.items], iteration.sources | sources)


def zipped(depth, children):
    """Equal positions of the children of a dot, to the shortest list."""
    if depth == 0:
        return End(dict(chain.from_iterable(child.binding.items() for child in children)))
    return side_by_side(children, lambda *items: zipped(depth - 1, items))


def side_by_side(children, joined):
    """Lists beside each other, of whose items each are joined, to the shortest; or the first fault in the place of one."""
    sources = set().union(*(child.sources for child in children))
    for child in children:
        if isinstance(child, Stop):
            return Stop(child.document, sources, child.mark)
    return Level([joined(*items) for items in zip(*(child.items for child in children))], sources)


def paired(depth, left, right):
    """The left, which has this depth, with all of the right below each of its ends."""
    if depth == 0:
        return below(left, right)
    return side_by_side([left, right], lambda first, second: paired(depth - 1, first, second))


def tree_depth(tree, mismatch):
    """The levels of a strategy's iteration."""
    if isinstance(tree, str):
        return mismatch[tree]
    if "dot" in tree:
        depths = {tree_depth(child, mismatch) for child in tree["dot"]}
        assert len(depths) == 1, "a dot's children differ"
        return depths.pop()
    if "prefix" in tree:
        left, right = (tree_depth(child, mismatch) for child in tree["prefix"])
        assert left <= right, "the left is deeper than the right"
        return right
    return sum(tree_depth(child, mismatch) for child in tree["cross"])


def iterated(tree, mismatch, delivered):
    """The iteration of a strategy on what its ports are delivered."""
    if isinstance(tree, str):
        return leaf(tree, mismatch[tree], delivered[tree])
    if "dot" in tree:
        return zipped(tree_depth(tree, mismatch), [iterated(child, mismatch, delivered) for child in tree["dot"]])
    if "prefix" in tree:
        left, right = (iterated(child, mismatch, delivered) for child in tree["prefix"])
        return paired(tree_depth(tree["prefix"][0], mismatch), left, right)
    whole = End({})
    for child in tree["cross"]:
        whole = graft(whole, iterated(child, mismatch, delivered))
    return whole


def least_depth(value):
    return 1 + max((least_depth(item) for item in value), default=0) if isinstance(value, list) else 0


def depth_of(flow, depths, feed):
    """The depth that a feed delivers, by the depths of the iterations of the steps."""
    if "input" in feed:
        return flow["inputs"][feed["input"]]
    if "step" in feed:
        return flow["steps"][feed["step"]]["outputs"][feed["port"]] + depths[feed["step"]]
    if "merge" in feed:
        return 1 + depth_of(flow, depths, feed["merge"][0])
    return least_depth(feed["constant"])


def fed_by(feed):
    """The steps that a feed names."""
    return {feed["step"]} if "step" in feed else set().union(*map(fed_by, feed.get("merge", [])))


def before(step):
    """The steps that must be taken before this one."""
    return set(step.get("after", [])).union(*(fed_by(port["from"]) for port in step["inputs"].values()))


def by_rank(steps):
    """The steps by rank: again and again the least name of those whose feeding and `after` steps are taken."""
    taken = []
    while len(taken) < len(steps):
        taken.append(min(name for name in steps if name not in taken and before(steps[name]) <= set(taken)))
    return taken


def strategy_of(step):
    """A step's tree: without one, a cross of its ports."""
    return step.get("strategy") or {"cross": sorted(step["inputs"])}


class Step:
    """A step with its iteration: the jobs with what they bind and use, and the lists and faults with what they come from."""

    def __init__(self, name, step, tree, mismatch, delivered):
        self.name = name
        self.step = step
        self.ports = sorted(step["inputs"])
        self.depth = tree_depth(tree, mismatch)
        self.iteration = iterated(tree, mismatch, delivered)
        self.jobs, self.used, self.levels, self.passed = {}, {}, {}, set()
        self.enter(self.iteration, ())

    def enter(self, iteration, place):
        if isinstance(iteration, End):
            values = [iteration.binding[port] for port in self.ports]
            needs = set().union(*(value.inside() for value in values))
            self.jobs[place] = ([value.plain() for value in values], any(value.holds_fault() for value in values), needs)
            self.used[place] = set().union(*(value.used() for value in values))
        elif isinstance(iteration, Stop):
            self.levels[place] = (None, iteration.sources)
        else:
            self.levels[place] = (len(iteration.items), iteration.sources)
            for number, item in enumerate(iteration.items):
                self.enter(item, place + (number,))

    def output(self, port, results):
        """An output's value: each job's result in its place. What a job hasn't given is an empty list, of that job's making."""
        number = sorted(self.step["outputs"]).index(port)

        def put(iteration, place):
            if isinstance(iteration, End):
                return nodes(("job", self.name, place), results.get((self.name, place), {number: []})[number])
            if isinstance(iteration, Stop):
                depth = self.depth - len(place) + self.step["outputs"][port]
                fault = {"error": {**iteration.document["error"], "depth": depth}}
                return Node(("level", self.name, place), fault, iteration.mark)
            return Node(("level", self.name, place), [put(item, place + (at,)) for at, item in enumerate(iteration.items)])

        return put(self.iteration, ())


class Instance:
    """An instance of a flow, by the results of its jobs."""

    def __init__(self, flow, inputs, results):
        self.flow = flow
        self.results = results
        self.inputs = inputs
        self.steps, self.depths, self.values = {}, {}, {}
        self.order = by_rank(flow["steps"])
        for name in self.order:
            self.take(name, flow["steps"][name])
        self.ended = {port: self.fed(flow["outputs"][port]) for port in sorted(flow["outputs"])}
        self.outputs = [value.plain() for value in self.ended.values()]

    def fed(self, feed):
        """The value of a feed."""
        if "input" in feed:
            return given(feed["input"], self.inputs[feed["input"]])
        if "step" in feed:
            return self.values[feed["step"], feed["port"]]
        if "merge" in feed:
            return Node(None, [self.fed(link) for link in feed["merge"]])
        return nodes(None, feed["constant"])

    def work(self, name):
        """Here a step's jobs are worked out, where their results aren't given."""

    def take(self, name, step):
        mismatch, delivered = {}, {}
        for port, described in step["inputs"].items():
            more = depth_of(self.flow, self.depths, described["from"]) - described["depth"]
            mismatch[port] = max(0, more)
            delivered[port] = self.fed(described["from"])
            for _ in range(-more):
                delivered[port] = Node(None, [delivered[port]])
        self.steps[name] = Step(name, step, strategy_of(step), mismatch, delivered)
        self.depths[name] = self.steps[name].depth
        self.work(name)
        for port in step["outputs"]:
            self.values[name, port] = self.steps[name].output(port, self.results)


class Told:
    """An instance after some events."""

    def __init__(self, instance):
        self.instance = instance
        self.happened = {None}
        self.taken = set()
        self.seen, self.jobs = 0, set()

    def known(self):
        """The known jobs: all nodes that they bind are known. They are looked for anew once something has happened."""
        if self.seen < len(self.happened):
            steps = self.instance.steps.items()
            self.jobs = {(name, place) for name, step in steps for place, job in step.jobs.items() if job[2] <= self.happened}
            self.seen = len(self.happened)
        return self.jobs

    def settleable(self):
        """The lists and faults that have no entry, and of which all sources are known, each with a list's length."""
        return {
            (name, place): length
            for name, step in self.instance.steps.items()
            for place, (length, sources) in step.levels.items()
            if ("level", name, place) not in self.happened and sources <= self.happened
        }

    def results(self):
        """How many values were given: one for each output of each job with a result."""
        return sum(len(self.instance.flow["steps"][node[1]]["outputs"]) for node in self.happened if node and node[0] == "job")

    def has_ended(self, name):
        step = self.instance.steps[name]
        own = {("job", name, place) for place in step.jobs} | {("level", name, place) for place in step.levels}
        return own <= self.happened and self.may_settle(name)

    def may_settle(self, name):
        """The steps that it runs after have ended."""
        return all(self.has_ended(other) for other in self.instance.flow["steps"][name].get("after", []))

    def ended(self):
        return all(self.has_ended(name) for name in self.instance.steps)

    def idle(self, name):
        """The places of the step's known jobs that neither run nor have a result, in order."""
        return sorted(place for step, place in self.known() if step == name and (step, place) not in self.taken)

    def order(self, job):
        """Job order: the step of the greatest rank first, then the least place."""
        return (-self.instance.order.index(job[0]), job[1])

    def ready(self):
        """The ready jobs, in job order."""
        steps = [name for name in self.instance.steps if self.may_settle(name)]
        return sorted(((name, place) for name in steps for place in self.idle(name)), key=self.order)

    def holds_error(self, job):
        return self.instance.steps[job[0]].jobs[job[1]][1]

    def binds(self, job):
        return self.instance.steps[job[0]].jobs[job[1]][0]

"""Scripts for frames: one for each feature, with the events that show it in their order, and flows in which one feature feeds another.

A case is what `main.rattle` reads. Events that a script doesn't name are drawn from the case's seed.
"""
X = {"input": "x"}
Y = {"input": "y"}


def out(step, port="o"):
    return {"step": step, "port": port}


def merge(*links):
    return {"merge": list(links)}


def step(service, ports, outputs=None, **more):
    """A step of one service: its ports as (depth, feed), its outputs with their depths."""
    inputs = {name: {"depth": depth, "from": feed} for name, (depth, feed) in ports.items()}
    return {"inputs": inputs, "outputs": {"o": 0} if outputs is None else outputs, "activities": [{"service": service}], **more}


def case(inputs, steps, outputs, script=(), seed=1, **more):
    """A case of a flow with these values as inputs, each of its least depth."""
    from model import least_depth

    flow = {"inputs": {name: least_depth(value) for name, value in inputs.items()}, "steps": steps, "outputs": outputs}
    document = {"taverna": 1, "main": "m", "flows": {"m": flow}, "inputs": inputs}
    return {"document": document, "script": list(script), "seed": seed, **more}


def take(name, *place):
    return ["take", name, list(place)]


def give(name, *place, values=None):
    return ["give", name, list(place)] + ([] if values is None else [values])


def both(name, *place, values=None):
    return [take(name, *place), give(name, *place, values=values)]


def crosswise():
    """Two links of a merge arrive crosswise; the merge is walked, taken whole, and its links are walked."""
    steps = {
        "p": step("upper", {"a": (0, X)}),
        "q": step("lower", {"a": (0, X)}),
        "whole": step("echo", {"a": (2, merge(out("q"), out("p")))}, {"o": 2}),
        "walked": step("count", {"a": (1, merge(out("q"), out("p")))}),
        "deep": step("upper", {"a": (0, merge(out("q"), X, out("p")))}),
    }
    script = [take("p", 1), take("q", 0), take("q", 1), give("q", 1), take("p", 0), give("p", 1), give("p", 0), ["settle"], give("q", 0)]
    return case({"x": ["aB", "Cd"]}, steps, {"out": out("whole"), "more": merge(out("walked"), out("walked")), "deep": out("deep")}, script)


def wrapped():
    """A wrapped value comes late, after the jobs that it is crossed with are known from the other port."""
    steps = {
        "late": step("split", {"a": (0, Y), "b": (0, {"constant": ","})}, {"o": 1}),
        "twice": step("flatten", {"a": (2, out("late"))}, {"o": 1}),
        "crossed": step("take", {"a": (1, out("twice")), "b": (0, X)}, {"o": 1}, strategy={"cross": ["b", "a"]}),
        "merged": step("echo", {"a": (4, merge(out("late"), out("twice")))}, {"o": 4}),
    }
    script = [take("late"), ["settle"], give("late"), take("twice"), give("twice"), *both("crossed", 1)]
    return case({"x": ["1", "2"], "y": "a,b"}, steps, {"out": out("crossed"), "more": out("merged")}, script)


def outer_fault():
    """A fault stands at an outer level of a list that is bound whole, bound in part, or walked."""
    steps = {
        "p": step("echo", {"a": (0, X)}, {"o": 2}),
        "whole": step("echo", {"a": (2, out("p"))}, {"o": 2}),
        "part": step("count", {"a": (1, out("p"))}),
        "walked": step("upper", {"a": (0, out("p"))}),
        "beside": step("concat", {"a": (0, out("p")), "b": (0, out("part"))}),
        "bound": step("intersect", {"a": (1, out("walked")), "b": (1, out("p"))}, {"o": 1}, strategy={"dot": ["b", "a"]}),
    }
    value = [["a"], {"fault": 1}, [], ["b", {"fault": 0}]]
    script = [
        *both("p", 0, values=[value]),
        *both("part", 0, 1),
        *both("p", 1, values=[{"fault": 2}]),
        ["settle"],
        *both("walked", 0, 3, 0),
        *both("whole", 1),
        ["settle"],
    ]
    outputs = {name: out(name) for name in ("whole", "part", "walked", "beside", "bound")}
    return case({"x": ["a", "b"]}, steps, outputs, script)


def empty_outer():
    """The empty outer list of a step is closed before the steps that run after it."""
    steps = {
        "none": step("upper", {"a": (0, {"constant": []})}),
        "inner": step("upper", {"a": (0, X)}),
        "then": step("lower", {"a": (0, Y)}, after=["none"]),
        "last": step("lower", {"a": (0, Y)}, after=["inner", "then"]),
    }
    script = [["settle"], ["settle"], ["settle"], ["settle"], *both("then")]
    return case({"x": [[], [["a"], []][1]], "y": "T"}, steps, {"out": out("last"), "none": out("none"), "inner": out("inner")}, script)


def without_outputs():
    """Steps without outputs are waited for, and pass faults that nothing gets."""
    steps = {
        "mute": step("upper", {"a": (0, X)}, {}),
        "next": step("lower", {"a": (0, Y)}, after=["mute"]),
        "bad": step("range", {"a": (0, Y), "b": (0, {"constant": "1"})}, {"o": 1}),
        "deaf": step("upper", {"a": (0, out("bad"))}, {}),
        "end": step("upper", {"a": (0, Y)}, after=["deaf"]),
    }
    script = [*both("mute", 1, values=[]), take("mute", 0), ["settle"], *both("bad"), ["settle"], give("mute", 0), *both("next")]
    return case({"x": ["a", "b"], "y": "no"}, steps, {"out": out("next"), "end": out("end")}, script)


def constants():
    """Constants are bound, wrapped and walked, and feed outputs."""
    steps = {
        "one": step("concat", {"a": (0, {"constant": ["1", "2"]}), "b": (0, {"constant": "x"})}),
        "two": step("join", {"a": (1, {"constant": "w"}), "b": (0, {"constant": [[","], []]})}),
    }
    script = [*both("one", 1), *both("two", 0, 0), ["settle"]]
    return case({}, steps, {"out": out("one"), "two": out("two"), "own": {"constant": [["c"], []]}}, script)


def given_inputs():
    """Inputs are bound, walked and merged, with faults in them, and feed outputs."""
    steps = {
        "walk": step("upper", {"a": (0, X)}),
        "bind": step("count", {"a": (1, X)}),
        "mix": step("concat", {"a": (0, merge(X, Y)), "b": (0, {"constant": "z"})}),
    }
    given = [[["a"], {"fault": 1}, [{"fault": 0}, "b"]], {"fault": 2}]
    outputs = {"out": out("walk"), "bind": out("bind"), "mix": out("mix"), "own": merge(Y, X), "x": X}
    return case({"x": [["a"]], "y": [["b"]]}, steps, outputs, [*both("walk", 0, 0), *both("bind", 1), ["settle"]], given=given)


def without_ports():
    """Steps without ports have one job from the start."""
    steps = {
        "one": step("upper", {}, {"o": 1}),
        "two": step("upper", {"a": (0, out("one"))}),
        "three": step("upper", {}, {}, after=["two"]),
    }
    script = [*both("one", values=[["a", {"fault": 0}]]), *both("two", 1), ["settle"], *both("two", 0), *both("three", values=[])]
    return case({}, steps, {"out": out("two")}, script)


def without_steps():
    """A flow without steps has ended from the start."""
    return case({"x": ["a"]}, {}, {"out": X, "c": {"constant": "c"}, "both": merge(X, X)})


def trees():
    """Crosses in dots, dots in crosses, a dot of lists of other lengths, one of a fault."""
    ports = {"a": (0, X), "b": (0, out("p")), "c": (0, Y)}
    steps = {
        "p": step("range", {"a": (0, {"constant": "1"}), "b": (0, {"constant": "3"})}, {"o": 1}),
        "dot": step("concat", {"a": (0, X), "b": (0, out("p"))}, strategy={"dot": ["b", "a"]}),
        "cross": step("concat", {"a": (0, X), "b": (0, out("p"))}, strategy={"cross": ["b", "a"]}),
        "deep": step("upper", ports, strategy={"dot": [{"cross": ["b", "a"]}, "c"]}),
        "wide": step("upper", ports, strategy={"cross": ["c", {"dot": ["a", "b"]}]}),
    }
    script = [take("p"), ["settle"], give("p"), *both("cross", 2, 0), *both("cross", 0, 1), *both("dot", 1), ["settle"]]
    outputs = {name: out(name) for name in ("dot", "cross", "deep", "wide")}
    return case({"x": ["a", "b"], "y": [["1", "2", "3"], [], ["4"]]}, steps, outputs, script)


def dot_of_faults():
    """A dot in which one child or the other has a fault."""
    steps = {
        "p": step("echo", {"a": (0, {"constant": "p"})}, {"o": 2}),
        "q": step("echo", {"a": (0, {"constant": "q"})}, {"o": 2}),
        "dot": step("concat", {"a": (0, out("p")), "b": (0, out("q"))}, strategy={"dot": ["b", "a"]}),
        "cross": step("concat", {"a": (0, out("p")), "b": (1, out("q"))}),
    }
    left, right = [["a", "b"], {"fault": 1}, ["c"], {"fault": 1}], [{"fault": 1}, {"fault": 1}, ["d", {"fault": 0}, "e"], ["f"]]
    script = [take("p"), take("q"), give("p", values=[left]), ["settle"], give("q", values=[right]), ["settle"], *both("dot", 2, 0)]
    return case({}, steps, {"out": out("dot"), "cross": out("cross")}, script)


def two_faults():
    """A dot in which both children have a fault: the first child's stands, and tells who made it."""
    steps = {
        "p": step("range", {"a": (0, X), "b": (0, {"constant": "2"})}, {"o": 1}),
        "q": step("split", {"a": (0, X), "b": (0, {"constant": ""})}, {"o": 1}),
        "dot": step("concat", {"a": (0, out("p")), "b": (0, out("q"))}, strategy={"dot": ["b", "a"]}),
        "other": step("concat", {"a": (0, out("p")), "b": (0, out("q"))}, strategy={"dot": ["a", "b"]}),
    }
    script = [*both("p", 1), *both("q", 1), ["settle"], *both("q", 0), ["settle"], *both("p", 0)]
    return case({"x": ["no", "1", "nor"]}, steps, {"out": out("dot"), "other": out("other")}, script)


def depths():
    """Ports and outputs of declared depths above 0, that are walked, wrapped and taken as they are."""
    steps = {
        "p": step("split", {"a": (0, X), "b": (0, {"constant": ","})}, {"o": 1}),
        "same": step("reverse", {"a": (1, out("p"))}, {"o": 1}),
        "more": step("flatten", {"a": (2, out("p"))}, {"o": 1}),
        "less": step("count", {"a": (1, merge(out("p"), out("same")))}),
        "over": step("echo", {"a": (4, out("less"))}, {"o": 4}),
    }
    script = [*both("p", 1), ["settle"], *both("same", 1), *both("less", 0, 1), *both("p", 0)]
    return case({"x": ["a,b", "c"]}, steps, {"out": out("over"), "more": out("more")}, script)


def control():
    """Chains of steps that run after others, and jobs that are known long before they are ready."""
    steps = {
        "a": step("upper", {"a": (0, X)}, after=["c"]),
        "b": step("upper", {"a": (0, out("a"))}, after=["a"]),
        "c": step("fail_if", {"a": (0, X)}),
        "d": step("lower", {"a": (0, out("c"))}, after=["a", "c"]),
        "e": step("concat", {"a": (0, X), "b": (0, X)}, after=["b", "d"]),
    }
    script = [*both("c", 1), ["settle"], *both("c", 2), *both("c", 0)]
    return case({"x": ["a", "true", "b"]}, steps, {"out": out("e"), "d": out("d")}, script)


def out_of_order():
    """Jobs become known out of order, and are taken in another."""
    steps = {
        "p": step("upper", {"a": (0, X)}),
        "q": step("lower", {"a": (0, out("p"))}),
        "r": step("concat", {"a": (0, out("q")), "b": (0, out("p"))}),
    }
    script = [*both("p", 2), *both("p", 0), *both("q", 2), take("q", 0), *both("p", 3), *both("r", 2, 0), *both("p", 1), give("q", 0)]
    return case({"x": ["A", "B", "C", "D"]}, steps, {"out": out("r")}, script)


def deeper_than_places():
    """A step without outputs may iterate deeper than any value is: its places take memory of their own."""

    def nested(levels, *items):
        return [nested(levels - 1, *items)] if levels > 1 else list(items)

    deep = {"a": (0, {"constant": nested(16, "a", "b")}), "b": (0, {"constant": nested(16, "c")}), "c": (0, X)}
    steps = {"mute": step("upper", deep, {}), "next": step("lower", {"a": (0, Y)}, after=["mute"])}
    return case({"x": nested(5, "d", "e"), "y": "T"}, steps, {"out": out("next")}, [["settle"], ["settle"]])


def left_early():
    """An instance that is left before its end releases what it holds."""
    steps = {"p": step("upper", {"a": (0, X)}), "q": step("count", {"a": (1, out("p"))})}
    return case({"x": ["a", "b"]}, steps, {"out": out("q")}, [*both("p", 1), ["settle"], ["abandon"]])


FEATURES = [
    crosswise,
    wrapped,
    outer_fault,
    empty_outer,
    without_outputs,
    constants,
    given_inputs,
    without_ports,
    without_steps,
    trees,
    dot_of_faults,
    two_faults,
    depths,
    control,
    out_of_order,
    deeper_than_places,
    left_early,
]


class Flow:
    """A flow that grows by parts, each fed by the one before."""

    def __init__(self):
        self.steps, self.feed, self.depth = {}, X, 1

    def add(self, name, *described, **more):
        name = f"{'kmbzcx'[len(self.steps) % 6]}{len(self.steps)}{name}"
        self.steps[name] = step(*described, **more)
        return out(name)

    def pass_on(self, feed, depth):
        self.feed, self.depth = feed, depth


def add_merge(flow):
    first, second = flow.add("p", "upper", {"a": (0, flow.feed)}), flow.add("q", "lower", {"a": (0, flow.feed)})
    flow.pass_on(flow.add("e", "count", {"a": (1, merge(second, first))}), flow.depth)


def add_wrapped(flow):
    late = flow.add("p", "lower", {"a": (0, flow.feed)})
    flow.pass_on(flow.add("w", "echo", {"a": (flow.depth + 2, late)}, {"o": flow.depth + 2}), flow.depth + 2)


def add_fault(flow):
    ranges = flow.add("r", "range", {"a": (0, flow.feed), "b": (0, {"constant": "2"})}, {"o": 1})
    flow.add("b", "echo", {"a": (flow.depth + 1, ranges)}, {"o": flow.depth + 1})
    flow.pass_on(flow.add("u", "upper", {"a": (0, ranges)}), flow.depth + 1)


def add_empty(flow):
    none = flow.add("n", "upper", {"a": (0, {"constant": [[], []]}), "b": (0, flow.feed)})
    flow.pass_on(flow.add("t", "lower", {"a": (0, flow.feed)}, after=[none["step"]]), flow.depth)


def add_mute(flow):
    mute = flow.add("m", "upper", {"a": (0, flow.feed)}, {})
    flow.pass_on(flow.add("t", "upper", {"a": (0, flow.feed)}, after=[mute["step"]]), flow.depth)


def add_constant(flow):
    flow.pass_on(flow.add("c", "concat", {"a": (0, {"constant": ["1", "2"]}), "b": (0, flow.feed)}), flow.depth + 1)


def add_dot(flow):
    other = flow.add("p", "fail_if", {"a": (0, flow.feed)})
    flow.pass_on(flow.add("d", "concat", {"a": (0, other), "b": (0, flow.feed)}, strategy={"dot": ["b", "a"]}), flow.depth)


def add_two_faults(flow):
    """Both children of a dot have a fault at the same places, of other jobs."""
    ranges = flow.add("r", "range", {"a": (0, flow.feed), "b": (0, {"constant": "2"})}, {"o": 1})
    taken = flow.add("t", "take", {"a": (1, {"constant": ["k", "l"]}), "b": (0, flow.feed)}, {"o": 1})
    flow.pass_on(flow.add("d", "concat", {"a": (0, ranges), "b": (0, taken)}, strategy={"dot": ["b", "a"]}), flow.depth + 1)


def add_depths(flow):
    parts = flow.add("s", "split", {"a": (0, flow.feed), "b": (0, {"constant": ","})}, {"o": 1})
    flow.pass_on(flow.add("j", "reverse", {"a": (1, parts)}, {"o": 1}), flow.depth + 1)


def add_control(flow):
    first = flow.add("f", "upper", {"a": (0, flow.feed)})
    second = flow.add("g", "lower", {"a": (0, flow.feed)}, after=[first["step"]])
    flow.pass_on(flow.add("h", "concat", {"a": (0, second), "b": (0, {"constant": "h"})}, after=[first["step"], second["step"]]), flow.depth)


def add_portless(flow):
    none = flow.add("z", "upper", {})
    flow.pass_on(flow.add("m", "echo", {"a": (flow.depth, flow.feed), "b": (0, none)}, {"o": flow.depth}), flow.depth)


PARTS = [
    add_merge,
    add_wrapped,
    add_fault,
    add_empty,
    add_mute,
    add_constant,
    add_dot,
    add_two_faults,
    add_depths,
    add_control,
    add_portless,
]


def pair(first, second, seed):
    """A flow in which the one part feeds the other, in an order that is drawn."""
    flow = Flow()
    first(flow)
    second(flow)
    return case({"x": ["true", "1"] if seed % 2 else ["2", "a,b", "true"]}, flow.steps, {"out": flow.feed}, seed=seed, board=True)


def features():
    """The scripts of single features."""
    return [made() for made in FEATURES]


def pairs(seeds):
    """Each ordered pair of parts, a part with itself included, in so many orders each."""
    return [pair(first, second, seed) for first in PARTS for second in PARTS for seed in range(1, seeds + 1)]

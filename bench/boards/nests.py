"""Documents with nested flows: worked ones, one for each feature, and random ones."""
from flows import TEXTS, Maker
from model import least_depth

X = {"input": "x"}
Y = {"input": "y"}
A = {"input": "a"}


def of(step, port="o"):
    return {"step": step, "port": port}


def step(ports, *activities, outputs=None, **more):
    """A step with these ports, as depth and feed; a nested activity is the name of its flow in brackets."""
    inputs = {name: {"depth": depth, "from": feed} for name, (depth, feed) in ports.items()}
    tried = [{"flow": name[1:-1]} if name[0] == "[" else {"service": name} for name in activities]
    return {"inputs": inputs, "outputs": {"o": 0} if outputs is None else outputs, "activities": tried, **more}


def flow(inputs, steps, outputs):
    return {"inputs": inputs, "steps": steps, "outputs": outputs}


def document(inputs, steps, outputs, **flows):
    depths = {name: least_depth(value) for name, value in inputs.items()}
    return {"taverna": 1, "main": "m", "flows": {"m": flow(depths, steps, outputs), **flows}, "inputs": inputs}


CAPITALS = flow({"a": 0}, {"u": step({"a": (0, A)}, "upper")}, {"o": of("u")})


def crossed():
    """A nested step in a cross of two lists, one of them made by another nested step."""
    pair = flow(
        {"a": 0, "b": 0},
        {"c": step({"a": (0, A), "b": (0, {"input": "b"})}, "concat"), "u": step({"a": (0, of("c"))}, "upper")},
        {"o": of("u")},
    )
    steps = {
        "n": step({"a": (0, X)}, "[s]", jobs=2),
        "p": step({"a": (0, of("n")), "b": (0, Y)}, "[pair]", jobs=3),
        "z": step({"a": (1, of("p")), "s": (0, {"constant": ","})}, "join"),
    }
    return document({"x": ["a", "b", "c"], "y": ["1", "2"]}, steps, {"out": of("z"), "all": of("p")}, s=CAPITALS, pair=pair)


def behind():
    """Nested steps behind control links and before them, in the main flow and in a nested one."""
    inner = flow(
        {"a": 1},
        {"p": step({"a": (0, A)}, "lower", jobs=2), "q": step({"a": (0, A)}, "[s]", jobs=2, after=["p"])},
        {"o": of("q")},
    )
    steps = {
        "p": step({"a": (0, X)}, "fail_if", jobs=2),
        "n": step({"a": (1, Y)}, "[inner]", outputs={"o": 1}, jobs=2, after=["p"]),
        "r": step({"a": (0, X)}, "lower", after=["n"]),
        "k": step({"a": (0, of("p"))}, "[s]", after=["r"]),
    }
    values = {"x": ["true", "b"], "y": [["a"], [], ["b", "c"]]}
    return document(values, steps, {"n": of("n"), "r": of("r"), "k": of("k")}, s=CAPITALS, inner=inner)


def failing():
    """Failed services and retries before the nested activity, in an instance, and behind one."""
    flaky = flow(
        {"a": 0},
        {
            "f": step({"a": (0, A), "n": (0, {"constant": "2"})}, "flaky", retries=2),
            "g": step({"a": (0, A)}, "fail_if", "[s]"),
            "h": step({"a": (0, A)}, "fail_if", retries=1),
        },
        {"o": {"merge": [of("f"), of("g"), of("h")]}},
    )
    steps = {
        "n": step({"a": (0, X)}, "fail_if", "count", "[flaky]", outputs={"o": 1}, retries=1, jobs=2),
        "k": step({"a": (0, of("n"))}, "[s]", jobs=3),
        "u": step({"a": (0, of("k"))}, "lower", jobs=2),
    }
    return document({"x": ["true", "no", "true"]}, steps, {"out": of("u"), "n": of("n")}, s=CAPITALS, flaky=flaky)


def passed():
    """Faults in the place of lists come out of instances, are passed, and bounce nested jobs."""
    spread = flow({"a": 0}, {"r": step({"a": (0, {"constant": "1"}), "b": (0, A)}, "range", outputs={"o": 1})}, {"o": of("r")})
    twice = flow({"a": 1}, {"n": step({"a": (0, A)}, "[spread]", outputs={"o": 1}, jobs=2)}, {"o": of("n")})
    steps = {
        "n": step({"a": (1, X)}, "[twice]", outputs={"o": 2}, jobs=2),
        "k": step({"a": (0, of("n"))}, "[s]", jobs=2),
        "d": step({"a": (0, of("n")), "b": (0, of("k"))}, "concat", strategy={"dot": ["a", "b"]}),
        "f": step({"a": (2, of("n"))}, "[flat]", outputs={"o": 1}),
    }
    flat = flow({"a": 2}, {"e": step({"a": (2, A)}, "flatten", outputs={"o": 1})}, {"o": of("e")})
    values = {"x": [["2", "z"], [], ["0", "1"]]}
    return document(values, steps, {"d": of("d"), "f": of("f")}, s=CAPITALS, spread=spread, twice=twice, flat=flat)


def deep():
    """Two flows deep and more, with two jobs of each level at once, and an instance that has nothing to do."""
    outer = flow({"a": 0}, {"n": step({"a": (0, A)}, "fail_if", "[s]"), "e": step({}, "[none]", outputs={})}, {"o": of("n")})
    most = flow({"a": 1}, {"k": step({"a": (0, A)}, "[outer]", jobs=2)}, {"o": of("k")})
    none = flow({}, {}, {})
    steps = {"m": step({"a": (1, X)}, "[most]", outputs={"o": 1}, jobs=2), "e": step({"a": (0, of("m"))}, "[outer]", jobs=2)}
    values = {"x": [["true", "b"], ["true"]]}
    return document(values, steps, {"out": of("e")}, s=CAPITALS, outer=outer, most=most, none=none)


FEATURES = [crossed, behind, failing, passed, deep]


class Nesting(Maker):
    """Makes one flow, some of whose steps open others."""

    def __init__(self, random, flows, most):
        super().__init__(random, False)
        self.flows, self.most = flows, most  # flows with the depths of their outputs

    def step(self):
        if self.flows and self.random.random() < 0.55:
            self.nested()
        else:
            super().step()
            name = self.names[len(self.flow["steps"]) - 1]
            self.flow["steps"][name]["jobs"] = self.random.choice([1, 1, 2, 3])

    def nested(self):
        """A step that opens a flow, some behind services."""
        name = self.names[len(self.flow["steps"])]
        opened = self.random.choice(sorted(self.flows))
        made, depths = self.flows[opened]
        inputs, mismatch = {}, {}
        for port, depth in sorted(made["inputs"].items()):
            feed, delivered = self.feed()
            if not -2 <= delivered - depth <= 2 - sum(mismatch.values()):
                feed, delivered = {"constant": self.full(depth)}, depth
            inputs[port] = {"depth": depth, "from": feed}
            mismatch[port] = max(0, delivered - depth)
        services = self.random.sample(["fail_if", "flaky", "count", "upper"], self.random.choice([0, 0, 1, 2]))
        tried = [*({"service": service} for service in services), {"flow": opened}]
        step = {"inputs": inputs, "outputs": depths, "activities": tried, "jobs": self.random.choice([1, 2, 2, 3])}
        if self.random.random() < 0.3:
            step["retries"] = self.random.randint(1, 2)
        self.put(name, step, mismatch, 0.5)

    def full(self, depth):
        """A value of just this depth."""
        return self.random.choice(TEXTS) if depth == 0 else [self.full(depth - 1) for _ in range(self.random.choice([1, 1, 2]))]

    def whole(self):
        """The flow, with the depths of its outputs."""
        for name in self.random.sample(["x", "in", "Y"], self.random.choice([0, 1, 1, 2])):
            depth = self.random.choice([0, 0, 1, 1, 2])
            self.flow["inputs"][name] = depth
            self.sources.append(({"input": name}, depth))
        for _ in range(self.random.randint(0 if self.random.random() < 0.1 else 1, self.most)):
            self.step()
        depths = {}
        for name in self.random.sample(["out", "r", "Z"], self.random.choice([0, 1, 1, 1, 2])):
            self.flow["outputs"][name], depths[name] = self.feed()
        return self.flow, depths


def drawn(random):
    """A random document: a main flow over flows that open none, and over some that open those."""
    low = {f"s{number}": Nesting(random, {}, 2).whole() for number in range(random.randint(1, 2))}
    high = {f"t{number}": Nesting(random, low, 2).whole() for number in range(random.randint(0, 2))}
    flows = {**low, **high}
    maker = Nesting(random, flows, 4)
    main, _ = maker.whole()
    inputs = {name: maker.value(depth) for name, depth in main["inputs"].items()}
    return {"taverna": 2, "main": "m", "flows": {"m": main, **{name: made for name, (made, _) in flows.items()}}, "inputs": inputs}


def cases(random, orders, count):
    """Each feature in so many orders, and so many random documents in one order each."""
    found = [{"document": feature(), "seed": random.randrange(1 << 40)} for feature in FEATURES for _ in range(orders)]
    return found + [{"document": drawn(random), "seed": random.randrange(1 << 40)} for _ in range(count)]

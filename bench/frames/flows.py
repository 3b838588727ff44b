"""Random flows of one instance, with values for their inputs: cases for `main.rattle`."""
from model import least_depth, tree_depth

STEPS = ["b", "c2", "c10", "z", "a", "y_", "M"]
PORTS = ["p", "a", "x10", "x9"]
TEXTS = ["true", "1", "2", "ab", "a,b", "", "Q"]
# services with the depths of their ports and of their output
SERVICES = [
    ("upper", [0], 0),
    ("lower", [0], 0),
    ("fail_if", [0], 0),
    ("fail_if", [0], 0),
    ("length", [0], 0),
    ("count", [1], 0),
    ("reverse", [1], 1),
    ("distinct", [1], 1),
    ("flatten", [2], 1),
    ("echo", [0], 0),
    ("echo", [1], 1),
    ("echo", [2], 2),
    ("concat", [0, 0], 0),
    ("subtract", [0, 0], 0),
    ("split", [0, 0], 1),
    ("join", [1, 0], 0),
    ("take", [1, 0], 1),
    ("intersect", [1, 1], 1),
    ("flaky", [0, 0], 0),
]
DEEPEST = 3


class Maker:
    """Makes one flow, by a generator of random numbers."""

    def __init__(self, random, made):
        self.random = random
        self.made = made
        self.flow = {"inputs": {}, "steps": {}, "outputs": {}}
        self.sources = []  # feeds of one link, with the depth that each delivers
        self.names = random.sample(STEPS, len(STEPS))

    def value(self, depth):
        if depth == 0:
            return self.random.choice(TEXTS)
        return [self.value(depth - 1) for _ in range(self.random.choice([0, 1, 2, 2, 3]))]

    def faulty(self, depth):
        """A value with faults."""
        if self.random.random() < 0.12:
            return {"fault": depth}
        return self.value(0) if depth == 0 else [self.faulty(depth - 1) for _ in range(self.random.choice([0, 1, 2, 3]))]

    def feed(self):
        """A feed with the depth that it delivers."""
        draw = self.random.random()
        if not self.sources or draw < 0.12:
            value = self.value(self.random.choice([0, 0, 0, 1, 2]))
            return {"constant": value}, least_depth(value)
        link, depth = self.random.choice(self.sources)
        if draw < 0.75:
            return link, depth
        same = [other for other, deep in self.sources if deep == depth]
        return {"merge": [self.random.choice(same) for _ in range(self.random.choice([1, 2, 2, 3]))]}, depth + 1

    def tree(self, ports, mismatch):
        """A strategy of these ports."""
        if len(ports) == 1 and self.random.random() < 0.8:
            return ports[0]
        cuts = sorted(self.random.sample(range(1, len(ports)), self.random.randint(0, len(ports) - 1)))
        groups = [ports[start:end] for start, end in zip([0, *cuts], [*cuts, len(ports)])]
        if len(groups) == 1 and len(ports) > 1:
            groups = [[port] for port in ports]
        children = [self.tree(group, mismatch) if len(group) < len(ports) else group[0] for group in groups]
        depths = [tree_depth(child, mismatch) for child in children]
        if len(depths) == 2 and depths[0] <= depths[1] and self.random.random() < 0.4:
            return {"prefix": children}
        if len(set(depths)) == 1 and self.random.random() < 0.7:
            return {"dot": children}
        return {"cross": children}

    def ports(self, wanted):
        """Input ports with their mismatches, some of the wanted depths."""
        names = sorted(self.random.sample(PORTS, len(wanted)))
        inputs, mismatch = {}, {}
        for name, depth in zip(names, wanted):
            feed, delivered = self.feed()
            if self.random.random() < 0.15:
                depth = self.random.randint(0, 2)
            depth = max(depth, delivered - 2, delivered + sum(mismatch.values()) - DEEPEST)
            inputs[name] = {"depth": depth, "from": feed}
            mismatch[name] = max(0, delivered - depth)
        return inputs, mismatch

    def outputs(self, depth):
        draw = self.random.random()
        if draw < 0.08:
            return {}
        if self.made and draw < 0.5:
            return {name: self.random.randint(0, 2) for name in self.random.sample(["o", "e", "w"], self.random.randint(1, 3))}
        return {"o": depth if draw < 0.95 else self.random.randint(0, 2)}

    def step(self):
        name = self.names[len(self.flow["steps"])]
        service, wanted, depth = self.random.choice(SERVICES)
        if self.made:
            wanted = [self.random.choice([0, 0, 1, 2]) for _ in range(self.random.choice([0, 1, 1, 2, 2, 3]))]
        elif self.random.random() < 0.05:
            wanted = []
        inputs, mismatch = self.ports(wanted)
        step = {"inputs": inputs, "outputs": self.outputs(depth), "activities": [{"service": service}]}
        if self.random.random() < 0.2:
            step["activities"].append({"service": self.random.choice(["echo", "upper", "count", "fail_if"])})
        if self.random.random() < 0.3:
            step["retries"] = self.random.randint(1, 3)
        self.put(name, step, mismatch, 0.6)

    def put(self, name, step, mismatch, often):
        """The step, with a strategy so often where it has ports, and at times after others."""
        inputs = sorted(step["inputs"])
        if inputs and self.random.random() < often:
            step["strategy"] = self.tree(self.random.sample(inputs, len(inputs)), mismatch)
        earlier = sorted(self.flow["steps"])
        if earlier and self.random.random() < 0.35:
            step["after"] = self.random.sample(earlier, self.random.randint(1, min(2, len(earlier))))
        self.flow["steps"][name] = step
        levels = tree_depth(step["strategy"], mismatch) if "strategy" in step else sum(mismatch.values())
        self.sources += [({"step": name, "port": port}, more + levels) for port, more in step["outputs"].items()]

    def case(self):
        for name in self.random.sample(["x", "in", "Y"], self.random.choice([0, 1, 1, 2, 3])):
            depth = self.random.choice([0, 1, 1, 2, 2])
            self.flow["inputs"][name] = depth
            self.sources.append(({"input": name}, depth))
        for _ in range(self.random.choice([0, 1, 2, 3, 4, 5, 6, 7])):
            self.step()
        for name in self.random.sample(["out", "r", "Z"], self.random.randint(1, 3)):
            self.flow["outputs"][name] = self.feed()[0]
        inputs = {name: self.value(depth) for name, depth in self.flow["inputs"].items()}
        document = {"taverna": 2, "main": "m", "flows": {"m": self.flow}, "inputs": inputs}
        case = {"document": document, "seed": self.random.randrange(1 << 40)}
        if not self.made:
            return {**case, "board": True}
        given = [self.faulty(self.flow["inputs"][name]) for name in sorted(self.flow["inputs"])]
        return {**case, "made": True, "given": given}


def cases(random, count):
    """So many cases: every second one with made up results, and faults in the values of its inputs."""
    return [Maker(random, number % 2 == 1).case() for number in range(count)]

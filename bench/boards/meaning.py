"""What a document means, worked out plainly: each instance by finished nested lists, and each of its jobs by its tries.

Nothing here is taken from the engine's code. A value is a text, a list, or an error document `{"error":{..}}`.
"""
import re

from model import Instance

LEAST, GREATEST = -(1 << 63), (1 << 63) - 1


class Bad(Exception):
    """A service gives no value, for this reason."""


def number(text):
    """The number of a text, or None."""
    value = int(text) if re.fullmatch("-?[0-9]+", text, re.ASCII) else None
    return value if value is not None and LEAST <= value <= GREATEST else None


def has_depth(value, depth):
    if isinstance(value, list):
        return depth > 0 and all(has_depth(item, depth - 1) for item in value)
    return depth == 0


def ranged(name, value):
    if not LEAST <= value <= GREATEST:
        raise Bad(f"{name} out of range")
    return str(value)


def split(text, by):
    if not by:
        raise Bad("split wants a separator")
    return text.split(by)


def spread(first, last):
    if last - first >= 100_000:
        raise Bad("range too long")
    return [str(at) for at in range(first, last + 1)]


def taken(items, count):
    if count < 0:
        raise Bad("take wants a count")
    return items[:count]


def told(text):
    if text == "true":
        raise Bad("told to fail")
    return text


def changed(text, first, by):
    return "".join(chr(ord(letter) + by) if first <= letter <= chr(ord(first) + 25) else letter for letter in text)


# the depths of a service's inputs (n: a number; None: any), and what it gives
SERVICES = {
    "concat": ([0, 0], lambda a, b: a + b),
    "split": ([0, 0], split),
    "join": ([1, 0], lambda items, by: by.join(items)),
    "upper": ([0], lambda a: changed(a, "a", -32)),
    "lower": ([0], lambda a: changed(a, "A", 32)),
    "reverse": ([1], lambda items: items[::-1]),
    "length": ([0], lambda a: str(len(a))),
    "add": (["n", "n"], lambda a, b: ranged("add", a + b)),
    "subtract": (["n", "n"], lambda a, b: ranged("subtract", a - b)),
    "range": (["n", "n"], spread),
    "count": ([1], lambda items: str(len(items))),
    "take": ([1, "n"], taken),
    "flatten": ([2], lambda lists: [item for items in lists for item in items]),
    "echo": ([None], lambda a: a),
    "distinct": ([1], lambda items: list(dict.fromkeys(items))),
    "intersect": ([1, 1], lambda a, b: [item for item in a if item in b]),
    "fail_if": ([0], told),
}


def served(service, inputs, attempt):
    """The value that a service gives on these inputs, which hold no error."""
    depths, gives = SERVICES[service] if service != "flaky" else ([0, "n"], None)
    if len(inputs) != len(depths):
        raise Bad(f"{service} wants {len(depths)} inputs")
    for at, (value, depth) in enumerate(zip(inputs, depths), 1):
        wanted = 0 if depth == "n" else depth
        if wanted is not None and not has_depth(value, wanted):
            raise Bad(f"{service} input {at} wants depth {wanted}")
    for at, (value, depth) in enumerate(zip(inputs, depths), 1):
        if depth == "n" and number(value) is None:
            raise Bad(f"{service} input {at} is no number")
    given = [number(value) if depth == "n" else value for value, depth in zip(inputs, depths)]
    if service != "flaky":
        return gives(*given)
    if attempt < given[1]:
        raise Bad(f"flaky attempt {attempt}")
    return given[0]


def judged(step, service, inputs, attempt):
    """The values of a try, where its outcome is right."""
    value = served(service, inputs, attempt)
    if len(step["outputs"]) != 1:
        raise Bad("outcome has 1 values")
    (depth,) = step["outputs"].values()
    if not has_depth(value, depth):
        raise Bad(f"outcome value 1 lacks depth {depth}")
    return [value]


def error(at, depth, why, makers=()):
    return {"error": {"at": at, "depth": depth, "from": sorted(makers, key=levels), "why": why}}


def levels(name):
    """A job's name level by level, to order names."""
    parts = [part[:-1].partition("[") for part in name.split("/")]
    return [(step, [int(index) for index in place.split(",") if index]) for step, _, place in parts]


def makers_in(value):
    """The jobs that made the faults in a value."""
    if isinstance(value, list):
        return set().union(*map(makers_in, value))
    return {value["error"]["at"]} if isinstance(value, dict) else set()


class Job:
    """A job's tries up to the one that ends it, each as activity, attempt and whether it is right; None stands for nested."""

    def __init__(self):
        self.bounced = self.failed = False
        self.tries = []
        self.nested = None
        self.values = []


class Meaning(Instance):
    """An instance of a document's flow with all its jobs."""

    def __init__(self, document, name, inputs, prefix=""):
        self.document, self.prefix, self.ends = document, prefix, {}
        super().__init__(document["flows"][name], inputs, {})

    def work(self, name):
        for place, (binds, faulty, _) in self.steps[name].jobs.items():
            job = self.worked(name, place, binds, faulty)
            self.ends[name, place] = job
            self.results[name, place] = job.values

    def worked(self, name, place, binds, faulty):
        step, job = self.flow["steps"][name], Job()
        at = f"{self.prefix}{name}[{','.join(map(str, place))}]"
        depths = [step["outputs"][port] for port in sorted(step["outputs"])]
        if faulty:
            job.bounced = True
            job.values = [error(at, depth, "bounced", makers_in(binds)) for depth in depths]
            return job
        why = self.tried(step, job, at, binds)
        if why is not None:
            job.failed = True
            job.values = [error(at, depth, why) for depth in depths]
        return job

    def tried(self, step, job, at, binds):
        """Tries a job's activities in turn. Answers the last reason, where none is right."""
        why = None
        for activity, described in enumerate(step["activities"]):
            if "flow" in described:
                job.tries.append((activity, 0, None))
                inputs = dict(zip(sorted(step["inputs"]), binds))
                job.nested = Meaning(self.document, described["flow"], inputs, f"{at}/")
                job.values = job.nested.outputs
                return None
            for attempt in range(step.get("retries", 0) + 1):
                try:
                    job.values = judged(step, described["service"], binds, attempt)
                    job.tries.append((activity, attempt, True))
                    return None
                except Bad as bad:
                    why = str(bad)
                    job.tries.append((activity, attempt, False))
        return why

    def totals(self):
        """Attempts, bounced, failed, jobs."""
        jobs = self.ends.values()
        own = [
            sum(right is not None for job in jobs for _, _, right in job.tries),
            sum(job.bounced for job in jobs),
            sum(job.failed for job in jobs),
            len(jobs),
        ]
        inner = [job.nested.totals() for job in jobs if job.nested]
        return [sum(counts) for counts in zip(own, *inner)]


def meaning_of(document):
    return Meaning(document, document["main"], document.get("inputs", {}))


def line_of(whole):
    """What the result line says."""
    names = sorted(whole.flow["outputs"])
    totals = dict(zip(["attempts", "bounced", "failed", "jobs"], whole.totals()))
    return {"outputs": dict(zip(names, whole.outputs)), "totals": totals}

"""The jobs that failed: why, what was lost by it, and from which given elements they were made."""
import re

from .counts import way_of
from .program import Refused
from .values import is_error, parts


class Failure:
    """A job that failed. `lost` has the places of the outputs that hold an error because of it, and `bounced` how many jobs
    bounced by it. `given` has the elements of the inputs that it was made from, None where they weren't asked for."""

    def __init__(self, job, why):
        self.job, self.why, self.lost, self.bounced, self.given = job, why, [], 0, None


class Failures:
    """All failed jobs of a run that are known, in the order of steps and places; the first `most` with what they were made from."""

    def __init__(self, run, most):
        self.run, self.found, self.known, self.copied = run, {}, {}, {}
        lost = [(port, place, it["error"]) for port, value in run.outputs.items() for place, it in parts(value) if is_error(it)]
        for _, _, error in lost:
            run.errors.setdefault(error["at"], error)
        for job in sorted((job for job, error in run.errors.items() if not error["from"]), key=order):
            self.found[job] = Failure(job, run.errors[job]["why"])
        for port, place, error in lost:
            for job in self.causes(error["at"]):
                self.failure(job).lost.append((port, place))
        for job, error in run.errors.items():
            for cause in self.causes(job) if error["from"] else ():
                self.failure(cause).bounced += 1
        for failure in list(self.found.values())[:most]:
            failure.given = self.given_of(failure.job)

    def __iter__(self):
        return iter(self.found.values())

    def __len__(self):
        return len(self.found)

    def failure(self, job):
        return self.found.setdefault(job, Failure(job, None))

    def causes(self, job):
        """The failed jobs that a job's error comes from, over all that bounced between. One of which no error document is known
        counts as failed."""
        todo = [job]
        while todo:
            error = self.run.errors.get(todo[-1])
            before = error["from"] if error else []
            wanting = [it for it in before if it not in self.known]
            if wanting and todo[-1] not in self.known:
                todo += wanting
                continue
            name = todo.pop()
            if len(before) == 1:
                self.known[name] = self.known[before[0]]
            else:
                self.known[name] = sorted({cause for it in before for cause in self.known[it]}, key=order) or [name]
        return self.known[job]

    def told(self, error):
        """An error document in words: each failed job that it comes from, with the reason."""
        return "; ".join(f"{job}: {self.failure(job).why or 'failed'}" for job in self.causes(error["at"]))

    def given_of(self, job):
        """The elements of the inputs that a job was made from, as `lineage` tells them of its place in a copy. Of a job inside
        of another one they are those of the outer one, as in the program's own lineage."""
        step, place = re.match(r"(\w+)(\[[^]]*\])", job).groups()
        copies = self.run.copies
        if step not in self.copied:
            self.copied[step] = copies.copy((), [step]) if copies.can_tell((), step) else None
        if self.copied[step] is None:
            return None
        try:
            told = self.run.program.answer("lineage", "--of", f"p0{place}", document=self.copied[step], is_quiet=True)
        except Refused:
            return None
        return told.splitlines()

    def value_of(self, element):
        """The value of an element of the given inputs."""
        name, place = re.fullmatch(r"(\w+)\[([^]]*)\]", element).groups()
        value = self.run.document.get("inputs", {}).get(name)
        for index in place.split(",") if place else ():
            value = value[int(index)]
        return value


def order(job):
    """Jobs by their steps, and those of one step by their places."""
    return way_of(job), [tuple(map(int, filter(None, it.split(",")))) for it in re.findall(r"\[([^]]*)\]", job)]

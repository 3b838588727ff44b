"""What the steps of a run did, counted from the program's own answers.

`trace` tells each job that asked a service, and its attempts. The other jobs, and how each of them ended, are told by the outputs
of copies: an error document stands at the place of each job that failed or bounced. All sums are held against the run's totals.
"""
import json
import re

from .copies import MOST_OUTPUTS, Copies, flow_opened, in_order, is_without_outputs, services_first, steps_of, with_outputs
from .program import Refused
from .values import is_error, place_text

MOST_COPIES = 400  # runs of copies for one report
MOST_STEPS = 2000  # steps that are listed, each once for each way to it
TOLD = ("jobs", "failed", "bounced")


class Count:
    """What the jobs of one step did, over all instances of its flow that were opened on one way."""

    def __init__(self, flow, step):
        self.flow, self.step = flow, step
        self.jobs = self.failed = self.bounced = self.asked = self.attempts = self.retried = 0
        self.least = set()  # the figures of TOLD that are known to be at least so great, and no more

    def add(self, other):
        for name in ("jobs", "failed", "bounced", "asked", "attempts", "retried"):
            setattr(self, name, getattr(self, name) + getattr(other, name))
        self.least |= other.least


class Run:
    """A document and its run. `steps` has a Count for each way to a step, `errors` the error documents by the jobs they name,
    and `attempts` those of each job that asked; `untold` says how many jobs, failed and bounced ones no step is known to have."""

    def __init__(self, program, given):
        self.program = program
        checked = program.answer("check", document=given)
        self.document = json.loads(given)
        self.flows, self.main = self.document["flows"], self.document["main"]
        self.depths = depths_of(checked)
        self.result = program.result(given)
        self.outputs, self.totals = self.result["outputs"], self.result["totals"]
        traced = [line.rsplit(" ", 1) for line in program.answer("trace", document=given).splitlines()]
        self.attempts = {job: int(number) for job, number in traced}
        self.copies = self.copies_of_all()
        self.steps, self.errors, self.copied, self.is_cut = {}, {}, 0, False
        openings = [((), {""})]
        while openings:
            openings += self.count_flow(*openings.pop(0))
        self.count_asks()
        self.hold()

    def copies_of_all(self):
        """Copies in which each step has outputs, where the program gives such a document the same totals."""
        if is_without_outputs(self.document):
            made = with_outputs(self.document)
            try:
                depths = depths_of(self.program.answer("check", document=made, is_quiet=True))
                ran = self.program.result(made, is_quiet=True)
                if ran["totals"] == self.totals:
                    return Copies(made, depths)
            except Refused:
                pass
        return Copies(self.document, self.depths)

    def ran(self, way, steps, without_flow=False):
        """What a copy gives for these steps of the flow that a way opens; nothing where that can't be told."""
        if self.copied >= MOST_COPIES:
            return None
        self.copied += 1
        try:
            copy = self.copies.copy(way, steps, without_flow)
            outputs = self.program.result(copy, is_quiet=True)["outputs"]
        except Refused:
            return None
        return [outputs[f"p{number}"] for number in range(len(steps))]

    def count_flow(self, way, instances):
        """Counts the jobs of the steps of a flow in these instances, which are known to be all that were opened on this way;
        None where they aren't known. Gives the ways that the jobs open, each with its instances."""
        flow = self.copies.flow_of(way)
        steps = sorted(steps_of(self.flows[flow]))
        if len(self.steps) + len(steps) > MOST_STEPS and not instances:
            self.is_cut = True
            return []
        for step in steps:
            self.steps[way + (step,)] = Count(flow, step)
        told = [step for step in steps if instances and self.copies.can_tell(way, step)]
        opened = dict.fromkeys(steps, set() if instances == set() else None)
        for first in range(0, len(told), MOST_OUTPUTS):
            some = told[first : first + MOST_OUTPUTS]
            for step, tree in zip(some, self.ran(way, some) or ()):
                opened[step] = self.count_step(way + (step,), tree, instances)
        for step in steps:
            if opened[step] is None:
                self.steps[way + (step,)].least = set(TOLD)
        return [(way + (step,), opened[step]) for step in steps if flow_opened(steps_of(self.flows[flow])[step])]

    def count_step(self, way, tree, instances):
        """Counts the jobs of a step, of whose output port this is the value. Gives the names of those that opened a flow, or
        None where that can't be told."""
        count, good = self.steps[way], set()
        step = steps_of(self.flows[count.flow])[count.step]
        opens = flow_opened(step)
        for job, error in self.jobs(way, tree, instances):
            count.jobs += 1
            if error:
                self.errors[job] = error
                count.bounced += bool(error["from"])
                count.failed += not error["from"]
            elif opens:
                good.add(job)
        if not opens or not services_first(step):
            return good
        before = self.ran(way[:-1], [way[-1]], without_flow=True)
        if before is None:
            return None
        return {job for job, error in self.jobs(way, before[0], instances) if error and not error["from"]}

    def jobs(self, way, tree, instances):
        """The jobs of a step in these instances, each with its error document where it failed or bounced."""
        levels = self.copies.levels_of_way(way)
        whole, todo = sum(levels), [((), tree)]
        while todo:
            place, value = todo.pop()
            if len(place) == whole:
                job = job_name(way, levels, place)
                if job.rpartition("/")[0] in instances:
                    # (an error document of a job inside of this one stands in a good result)
                    yield job, value["error"] if is_error(value) and value["error"]["at"] == job else None
            elif isinstance(value, list):
                todo += [(place + (index,), value[index]) for index in range(len(value) - 1, -1, -1)]

    def count_asks(self):
        for job, number in self.attempts.items():
            count = self.steps.get(way_of(job))
            if count:
                count.asked += 1
                count.attempts += number
                count.retried += number > 1
                if "jobs" in count.least:
                    count.jobs += 1

    def hold(self):
        """Holds the sums against the totals."""
        sums = {name: sum(getattr(count, name) for count in self.steps.values()) for name in TOLD}
        sums["attempts"] = sum(self.attempts.values())
        self.untold = {name: self.totals[name] - sums[name] for name in sums if self.totals[name] != sums[name]}
        for count in self.steps.values():
            count.least &= set(self.untold)
        # sums that differ although each of their figures was told, or are too great: that would be a fault of this tool
        least = {name for count in self.steps.values() for name in count.least}
        self.differing = [name for name, number in self.untold.items() if name not in least or number < 0]

    def total(self, name):
        """The run's own total of a column; those of jobs that asked are told by `trace`."""
        if name in self.totals:
            return self.totals[name]
        least = 2 if name == "retried" else 1
        return sum(number >= least for number in self.attempts.values())

    def ways(self):
        """The ways to all steps, each before those inside of it."""
        orders = {}
        for way in self.steps:
            flow = self.steps[way].flow
            if flow not in orders:
                orders[flow] = {name: number for number, name in enumerate(in_order(self.flows[flow]))}
        return sorted(self.steps, key=lambda way: [orders[self.steps[way[: at + 1]].flow][it] for at, it in enumerate(way)])

    def does(self, way):
        """What a step's jobs do, in words."""
        count = self.steps[way]
        activities = steps_of(self.flows[count.flow])[count.step]["activities"]
        return ", else ".join(it.get("service") or f"flow {it['flow']}" for it in activities)


def depths_of(checked):
    """The depths that `check` tells, by the names of its lines."""
    found = {}
    for words in (line.split(" ") for line in checked.splitlines()):
        names = 3 if words[0] == "flow" else 4
        found[tuple(words[:names])] = [int(it) for it in words[names:]]
    return found


def job_name(way, levels, place):
    names, at = [], 0
    for step, number in zip(way, levels):
        names.append(step + place_text(place[at : at + number]))
        at += number
    return "/".join(names)


def way_of(job):
    return tuple(re.sub(r"\[[^]]*\]", "", job).split("/"))

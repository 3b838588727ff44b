"""Holds what the program of this folder writes of a case against the document's meaning (`meaning.py`): whether each entry of the
history is legal after those before it, and whether each call answers what the state before it says.
"""
import json

from meaning import levels, line_of, meaning_of
from model import Told

SETTLEMENTS = {"bounced", "closed", "passed", "ended", "opened"}


class Difference(Exception):
    """The board does something else than the meaning."""


def same(what, came, due):
    if came != due:
        raise Difference(f"{what}: came {json.dumps(came, default=list)}, due {json.dumps(due, default=list)}")


class Open:
    """An instance, after some entries."""

    def __init__(self, whole, key, job):
        self.whole, self.key, self.job = whole, key, job
        self.told = Told(whole)
        self.open = True
        self.jobs = {place: Running(self, place, end) for place, end in whole.ends.items()}
        self.names = sorted(whole.flow["steps"])

    def running(self, step):
        return sum(job.runs for (name, _), job in self.jobs.items() if name == step)

    def ready(self):
        return [self.jobs[place] for place in self.told.ready()]


class Running:
    """A job of an instance, after some entries."""

    def __init__(self, instance, place, end):
        self.instance, self.place, self.end = instance, place, end
        self.step = instance.whole.flow["steps"][place[0]]
        self.key = instance.key + ((-instance.whole.order.index(place[0]), place[1]),)
        self.name = f"{instance.whole.prefix}{place[0]}[{','.join(map(str, place[1]))}]"
        self.accepted = 0
        self.runs = self.out = self.settled = False
        self.nested = None

    def next(self):
        """The next try: its activity, its attempt, and whether it is right; None where it is nested."""
        return self.end.tries[self.accepted]

    def is_idle(self):
        return self.runs and not self.out and self.nested is None

    def starts(self):
        """It is ready, isn't bounced, and has a free place."""
        return not self.end.bounced and self.instance.running(self.place[0]) < self.step.get("jobs", 1)

    def begin(self):
        self.runs = True
        self.instance.told.taken.add(self.place)

    def settle(self):
        self.runs, self.settled = False, True
        self.instance.told.taken.add(self.place)
        self.instance.told.happened.add(("job", *self.place))

    def state(self, is_ready):
        if self.settled:
            return ["settled"]
        if self.nested is not None:
            return ["nested"]
        if self.runs:
            return ["out" if self.out else "idle", *self.next()[:2]]
        return ["ready" if is_ready else "waiting"]


class Replay:
    """A board's state, read off its history."""

    def __init__(self, document):
        self.whole = meaning_of(document)
        self.instances = [Open(self.whole, (), None)]
        self.by_prefix = {"": self.instances[0]}
        self.jobs = []
        self.attempts = self.bounced = self.failed = 0

    def open(self):
        return [instance for instance in self.instances if instance.open]

    def can_begin(self, nested):
        """The jobs whose next try is nested, or else a service, and that can take it now, in job order."""
        found = []
        for instance in self.open():
            begun = [job for job in instance.jobs.values() if job.is_idle()]
            begun += [job for job in instance.ready() if job.starts()]
            found += [job for job in begun if (job.next()[2] is None) == nested]
        return sorted(found, key=lambda job: job.key)

    def settleable(self):
        """The entries but Opened by which something settles."""
        found = []
        for number, instance in enumerate(self.instances):
            if not instance.open:
                continue
            found += [["bounced", job.name] for job in instance.ready() if job.end.bounced]
            for (name, place), length in instance.told.settleable().items():
                entry = [number, instance.names.index(name), list(place)]
                found.append(["passed", *entry] if length is None else ["closed", *entry, length])
            if instance.told.ended():
                found.append(["ended", number])
        return found

    def opens(self):
        """The job whose instance is opened next, where nothing else settles."""
        nested, asks = self.can_begin(True), self.can_begin(False)
        return nested[0] if nested and (not asks or nested[0].key < asks[0].key) else None

    def state_of(self, number):
        if number >= len(self.jobs):
            return ["unknown"]
        job = self.jobs[number]
        return job.state(job.instance.open and job.place in job.instance.told.ready())

    def named(self, name):
        """A job gets the next number."""
        head, _, last = name.rpartition("/")
        ((step, place),) = levels(last)
        instance = self.by_prefix.get(f"{head}/" if head else "")
        same(f"{name} is a job of an open instance", bool(instance and instance.open), True)
        job = instance.jobs.get((step, tuple(place)))
        same(f"{name} is a job with no number", job is not None and job not in self.jobs, True)
        self.jobs.append(job)

    def numbered(self):
        """Each ready job has a number."""
        for instance in self.open():
            for job in instance.ready():
                same(f"{job.name} has a number", job in self.jobs, True)

    def entry(self, entry):
        """An entry is legal, and what it changes."""
        kind = entry[0]
        if kind in ("closed", "passed", "ended"):
            same("it can be settled", entry in self.settleable(), True)
        if kind in ("closed", "passed"):
            instance = self.instances[entry[1]]
            instance.told.happened.add(("level", instance.names[entry[2]], tuple(entry[3])))
        elif kind == "ended":
            self.ended(self.instances[entry[1]])
        elif kind == "bounced":
            job = self.jobs[entry[1]]
            same("it can be bounced", ["bounced", job.name] in self.settleable(), True)
            self.bounced += 1
            job.settle()
        elif kind == "opened":
            self.opened(self.jobs[entry[1]], entry[2])
        elif kind == "out":
            job = self.jobs[entry[1]]
            asks = self.can_begin(False)
            same("the first ask", [job.name, *entry[2:]], [asks[0].name, *asks[0].next()[:2]] if asks else None)
            job.begin()
            job.out = True
        elif kind == "in":
            self.accepted(self.jobs[entry[1]], entry[2:])
        else:
            same("tries that are recalled", entry[1], self.out())
            for instance in self.open():
                for job in instance.jobs.values():
                    job.out = False

    def out(self):
        return sum(job.out for instance in self.instances for job in instance.jobs.values())

    def ended(self, instance):
        instance.open = False
        if instance.job:
            instance.job.nested = None
            instance.job.settle()

    def opened(self, job, number):
        same("nothing else settles", self.settleable(), [])
        due = self.opens()
        same("the job that is opened", job.name, due and due.name)
        same("the instance's number", number, len(self.instances))
        job.begin()
        job.nested = number
        instance = Open(job.end.nested, job.key, job)
        self.instances.append(instance)
        self.by_prefix[instance.whole.prefix] = instance

    def accepted(self, job, answer):
        same("the try that is out", [*answer, job.out], [*job.next(), True])
        self.attempts += 1
        job.accepted += 1
        job.out = False
        if job.accepted == len(job.end.tries):
            self.failed += job.end.failed
            job.settle()

    def totals(self):
        settled = sum(job.settled for instance in self.instances for job in instance.jobs.values())
        return [self.attempts, self.bounced, self.failed, settled]

    def call(self, call, entries, names):
        """A call with the entries and names that came of it."""
        kind = next(iter(call))
        due = getattr(self, f"call_{kind}")(call)
        came = [entry[:1] for entry in entries]
        same(f"entries of {json.dumps(call)}", came, [[what] for what in due] if due != SETTLEMENTS else came[:1])
        if due == SETTLEMENTS:
            same("one thing settles", len(entries) == 1 and entries[0][0] in SETTLEMENTS, True)
        for entry in entries:
            self.entry(entry)
        for name in names:
            self.named(name)
        self.numbered()

    def call_settle(self, call):
        same("whether something settles", call["settle"], bool(self.settleable() or self.opens()))
        return SETTLEMENTS if call["settle"] else []

    def call_hand(self, call):
        asks = self.can_begin(False)
        due = [self.jobs.index(asks[0]), *asks[0].next()[:2]] if asks else None
        same("the ask that is handed out", call["hand"], due)
        return ["out"] if asks else []

    def call_recall(self, call):
        same("how many are recalled", call["recall"], self.out())
        return ["recalled"] if call["recall"] else []

    def call_task(self, call):
        number, *answer = call["task"]
        job = self.jobs[number]
        is_out = job.out and list(job.next()[:2]) == answer
        if "state" in call:
            same("a ticket isn't out", is_out, False)
            same("where its job stands", call["state"], self.state_of(number))
            return []
        same("a ticket is out", is_out, True)
        binds = job.instance.told.binds(job.place)
        due = job.step["activities"][answer[0]]["service"], binds, job.step["outputs"]
        same("what is asked", [call["service"], call["inputs"], call["outputs"]], list(due))
        return []

    def call_accept(self, call):
        number, *answer = call["accept"]
        job = self.jobs[number]
        is_out = job.out and list(job.next()[:2]) == answer
        if not is_out:
            same("an answer that isn't awaited", call["came"], self.state_of(number))
            return []
        last = job.accepted + 1 == len(job.end.tries)
        due = ("good" if job.next()[2] else "failed") if last else "again"
        same("an answer", call["came"], due)
        return ["in"]

    def call_done(self, call):
        same("whether it is done", call["done"], not self.instances[0].open)
        same("the totals so far", call["totals"], self.totals())
        return []

    def call_start(self, call):
        return []


def replayed(case, lines, counts):
    """Goes through the lines of a case. Answers the difference, where there is one."""
    state = Replay(case["document"])
    group, entries, names = {"start": True}, [], []
    try:
        for line in lines:
            if {"case", "checked"} & line.keys():
                continue
            if "entry" in line:
                entries.append(line["entry"])
            elif "names" in line:
                names = line["names"]
            else:
                state.call(group, entries, names)
                counted(counts, state, group, entries)
                group, entries, names = line, [], []
                if {"left", "line"} & line.keys():
                    break
        end(state, lines)
    except Difference as difference:
        return f"{difference}\nat {json.dumps(group)} {json.dumps(entries)}"
    counts["instances"] += len(state.instances) - 1
    counts["boards" if "alone" in lines[-1] else "left"] += 1
    return None


def counted(counts, state, call, entries):
    counts["calls"] += 1
    counts["entries"] += len(entries)
    several = len(state.open()) > 2
    counts["calls with two nested instances open and more"] += several
    counts["recalls with instances open"] += bool(call.get("recall")) and len(state.open()) > 1
    counts["late answers"] += isinstance(call.get("came"), list)


def end(state, lines):
    """The result lines of the board and of one worker are the meaning's."""
    if "left" in lines[-1]:
        return
    same("the line of one worker", lines[-1]["alone"], lines[-2]["line"])
    same("the result line", lines[-2]["line"], line_of(state.whole))

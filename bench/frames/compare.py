"""Holds what the program of this folder writes of a case against the instance worked out plainly (`model.py`)."""
import json

from model import Instance, Told


class Difference(Exception):
    """The frame tells something else than the model."""


def same(what, told, due):
    if told != due:
        raise Difference(f"{what}: told {json.dumps(told, default=list)}, due {json.dumps(due, default=list)}")


def given(value):
    """A value of a case, as it is written: `{"fault":D}` is an error document."""
    if isinstance(value, list):
        return [given(item) for item in value]
    if isinstance(value, dict):
        return {"error": {"at": "made[0]", "depth": value["fault"], "from": [], "why": "made up"}}
    return str(value)


class Compared:
    """A case: its lines are taken one by one, and counted."""

    def __init__(self, case, lines):
        self.case = case
        self.lines = lines
        flow = case["document"]["flows"]["m"]
        self.names = sorted(flow["steps"])
        self.jobs, self.bound = [], []
        self.events = self.closed = self.passed = self.ahead = self.comparisons = 0
        values = case.get("given") or [case["document"]["inputs"][name] for name in sorted(flow["inputs"])]
        inputs = dict(zip(sorted(flow["inputs"]), map(given, values)))
        self.told = Told(Instance(flow, inputs, self.results()))

    def results(self):
        """All results that the case's jobs gave."""
        jobs, results = [], {}
        for line in self.lines:
            if "known" in line:
                jobs = line["known"]
            elif "gave" in line or "bounced" in line:
                step, place = jobs[line["gave" if "gave" in line else "bounced"]][:2]
                results[self.names[step], tuple(place)] = line["values"]
        return results

    def compare(self):
        """Goes through the lines. The last is the end of the case, where it came to that."""
        known = None
        for line in self.lines:
            if "known" in line:
                self.all_told(line)
                if known is not None:
                    same("jobs that an event brings", len(self.jobs) - known[0], known[1])
                    known = None
            elif "settles" in line:
                self.comparisons += 1
                same("whether something settles", line["settles"], bool(self.told.settleable()))
            elif "finished" in line:
                self.end(line)
            elif "board" in line:
                self.board(line["board"])
            elif not {"case", "checked", "looked"} & line.keys():
                self.events += 1
                self.event(line)
                known = (len(self.jobs), line.get("brings", 0))

    def event(self, line):
        told = self.told
        if "took" in line:
            job = self.jobs[line["took"]]
            same("a ready job is taken", job in told.ready(), True)
            told.taken.add(job)
        elif "gave" in line:
            job = self.jobs[line["gave"]]
            same("a running job ends", job in told.taken and ("job", *job) not in told.happened, True)
            if told.holds_error(job) and not self.case.get("made") and not self.is_scripted(job):
                self.bounced(job, line["values"])
            told.happened.add(("job", *job))
        elif "bounced" in line:
            job = self.jobs[line["bounced"]]
            same("a ready job is bounced", job in told.ready() and told.holds_error(job), True)
            if not self.case.get("made"):
                self.bounced(job, line["values"])
            self.ahead += 1
            told.taken.add(job)
            told.happened.add(("job", *job))
        else:
            kind = "closed" if "closed" in line else "passed"
            setattr(self, kind, getattr(self, kind) + 1)
            where = (self.names[line[kind]], tuple(line["place"]))
            same("it can be settled", where in told.settleable(), True)
            same(f"the length at {where}", line.get("length"), told.settleable()[where])
            told.happened.add(("level", *where))

    def is_scripted(self, job):
        """A script states the job's values."""
        return any(words[:3] == ["give", job[0], list(job[1])] and len(words) == 4 for words in self.case.get("script", []))

    def bounced(self, job, values):
        """What a job gives that binds an error."""
        makers = set()
        for value in self.told.binds(job):
            makers |= makers_in(value)
        outputs = self.told.instance.flow["steps"][job[0]]["outputs"]
        name = f"{job[0]}[{','.join(map(str, job[1]))}]"
        due = [
            {"error": {"at": name, "depth": outputs[port], "from": sorted(makers, key=name_order), "why": "bounced"}} for port in sorted(outputs)
        ]
        same("a bounced job", values, due)

    def all_told(self, line):
        """All that the frame tells, against the model."""
        told = self.told
        jobs = [(self.names[job[0]], tuple(job[1])) for job in line["known"]]
        # What a job binds stands in the line only where it is another than was told before.
        self.bound = [job[3] if len(job) == 4 else self.bound[number] for number, job in enumerate(line["known"])]
        same("jobs known before", jobs[: len(self.jobs)], self.jobs)
        self.jobs = jobs
        same("known jobs", sorted(jobs), sorted(told.known()))
        numbers = {job: number for number, job in enumerate(jobs)}
        for job, inputs, (_, _, holds_error, *_) in zip(jobs, self.bound, line["known"]):
            same(f"whether {job} holds an error", holds_error, told.holds_error(job))
            same(f"what {job} binds", inputs, told.binds(job))
        ready = told.ready()
        same("ready jobs", [jobs[number] for number in line["ready"]], ready)
        for job, after in zip(jobs, line["after"]):
            due = next((numbers[other] for other in ready if told.order(other) > told.order(job)), None)
            same(f"the ready job after {job}", after, due)
        for name, (may_settle, has_idle, good, faulty) in zip(self.names, line["steps"]):
            same(f"whether jobs of {name} may settle", may_settle, told.may_settle(name))
            same(f"whether a job of {name} is idle", has_idle, bool(told.idle(name)))
            own = [job for job in ready if job[0] == name]
            same(f"the first good job of {name}", good, next((numbers[job] for job in own if not told.holds_error(job)), None))
            same(f"the first faulty job of {name}", faulty, next((numbers[job] for job in own if told.holds_error(job)), None))
        faulty = any(told.holds_error((name, place)) for name in self.names for place in told.idle(name))
        same("whether an idle job holds an error", line["faulty"], faulty)
        same("as many items as results at least", line["live"] >= told.results(), True)
        same("ended", line["ended"], told.ended())
        same("outputs", line["outputs"], told.instance.outputs if told.ended() else None)
        self.comparisons += 7 + 3 * len(jobs) + 4 * len(self.names)

    def end(self, line):
        if line["finished"] is not None:
            same("it has ended", self.told.ended(), True)
            same("its outputs", line["finished"], self.told.instance.outputs)
        same("items that are left", line["live"], 0)
        self.comparisons += 2

    def board(self, board):
        """What the board writes of the same document."""
        names = sorted(self.case["document"]["flows"]["m"]["outputs"])
        same("the board's outputs", self.told.instance.outputs, [board["outputs"][name] for name in names])
        same("the board's jobs", len(self.jobs), board["totals"]["jobs"])
        same("the board's bounced jobs", sum(self.told.holds_error(job) for job in self.jobs), board["totals"]["bounced"])
        self.comparisons += 3


def makers_in(value):
    """The jobs that made the faults in a value."""
    if isinstance(value, list):
        return set().union(*map(makers_in, value))
    return {value["error"]["at"]} if isinstance(value, dict) else set()


def name_order(text):
    """Orders the names of jobs of one flow: by step, then by place."""
    step, _, place = text[:-1].partition("[")
    return step, [int(index) for index in place.split(",")] if place else []

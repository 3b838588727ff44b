"""Proves the program and builds it: the libraries side by side, as many as processors and memory allow, then the program as `rt run` does.

Each library is built by the kit's own calls, with the sums that it keeps, so that a later `rt run` or `rt check` takes it as built, and what
was built before is taken here. seconds.txt has what each crate took once, which says which to begin with, and how far the whole is.
"""
import contextlib
import os
import re
import subprocess
import sys
import threading
import time

import kit
import sources
from unproved import Failed

NEEDED = ("Crate", "lock", "guarded", "files_of")
OF_CRATE = ("build_rlib", "is_built", "below", "stamp", "need")
# A crate that seconds.txt hasn't: so much, and so much for each line of code, much as for those that it has.
FIRST, EACH_LINE = 10, 0.2


def seconds(top, names):
    """What each crate is taken to need, by its name."""
    known, found = {}, {}
    with open(f"{sources.HERE}/seconds.txt", encoding="utf-8") as it:
        for line in it:
            words = line.partition("#")[0].split()
            if len(words) == 2:
                known[words[0]] = float(words[1])
    for name in names:
        found[name] = known.get(name) or FIRST + EACH_LINE * lines_of(f"{top}/crates/{name}/src")
    return found


def lines_of(folder):
    count = 0
    for at, _, names in os.walk(folder):
        for name in names:
            if name.endswith(".rt"):
                with open(f"{at}/{name}", "rb") as it:
                    count += it.read().count(b"\n")
    return count


def commands(folder):
    """The kit's rt as a module, with what this needs of it, or why that can't be."""
    made = kit.loaded(folder, "rt")
    library = getattr(made, "rtlib", None)
    lacks = [it for it in NEEDED if not hasattr(library, it)]
    lacks += [f"Crate.{it}" for it in OF_CRATE if not lacks and not hasattr(library.Crate, it)]
    if made is None or lacks or not hasattr(made, "main"):
        return None, f"this kit's rt lacks {', '.join(lacks)}" if made else "this kit's rt is no Python"
    kit.once(library.Crate)
    return made, None


class Lanes:
    """Libraries built side by side."""

    def __init__(self, made, top, progress, jobs, logs):
        self.made, self.progress, self.logs = made, progress, logs
        library, known = made.rtlib, {}
        self.crates = {}
        self.uses = {it: [below for below in uses if below in sources.crates(top)] for it, uses in sources.uses(top).items()}
        for name in sources.crates(top):
            at = f"{top}/crates/{name}"
            if at not in known:
                known[at] = library.Crate(at, top, known)
            self.crates[name] = known[at]
        self.seconds = seconds(top, self.crates)
        self.lanes = jobs or processors(made)
        self.is_fixed = bool(jobs)
        self.memory = 0.85 * free(made)
        self.need = getattr(made, "need", None) or library.Crate.need
        self.behind, self.running, self.done, self.failed = {}, {}, set(), {}
        self.changed = threading.Condition()
        for name in reversed(list(self.crates)):
            above = [it for it in self.crates if name in self.uses[it]]
            self.behind[name] = self.seconds[name] + max([self.behind[it] for it in above], default=0)

    def share(self):
        now = time.time()
        whole = sum(self.seconds.values())
        at = sum(self.seconds[it] for it in self.done)
        # (a crate that takes longer than it did goes on at its end)
        at += sum(min(now - begun, 0.95 * self.seconds[it]) for it, (begun, _, _) in self.running.items())
        return at / whole

    def tell(self):
        names = sorted(self.running, key=lambda it: self.running[it][0])
        what = f"taverna: proving {' '.join(names)}" if self.progress.is_terminal else "taverna: proving"
        self.progress.show(what, self.share())

    def start(self, name, jobs):
        self.running[name] = time.time(), self.need(self.crates[name]) * (1 + 0.6 * (jobs - 1)), jobs
        threading.Thread(target=self.build, args=(name, jobs), daemon=True).start()

    def build(self, name, jobs):
        crate, status, begun = self.crates[name], 1, time.time()
        try:
            os.makedirs(f"{crate.folder}/out", exist_ok=True)
            with open(f"{self.logs}/{name}", "w", encoding="utf-8") as crate.out:
                with contextlib.suppress(SystemExit):
                    status = crate.build_rlib(["--jobs", str(jobs)], anew=False)
        finally:
            with self.changed:
                self.running.pop(name)
                if status or not crate.is_built():
                    self.failed[name] = status
                    self.progress.say(f"taverna: {name} isn't proved; what else is being proved is ended first")
                else:
                    self.done.add(name)
                    note_seconds(self.logs, name, begun)
                self.changed.notify_all()

    def begin_ready(self):
        """Starts what waits for nothing, the longest chain first, and one crate alone with the processors that nothing else wants."""
        ready = [it for it in self.left() if all(below in self.done for below in self.uses[it])]
        ready.sort(key=lambda it: -self.behind[it])
        for at, name in enumerate(ready):
            idle = self.lanes - sum(jobs for _, _, jobs in self.running.values())
            room = self.memory - sum(need for _, need, _ in self.running.values())
            need = self.need(self.crates[name])
            if idle <= 0 or (self.running and need > room and not self.is_fixed):
                break
            spare = 1 + int((room / need - 1) / 0.6) if need < room else 1
            self.start(name, max(1, min(4, idle // (len(ready) - at), spare)))

    def left(self):
        return [it for it in self.crates if it not in self.done and it not in self.running and it not in self.failed and it != sources.PROGRAM]

    def run(self):
        """Answers the names of crates that failed."""
        self.done = {it for it, crate in self.crates.items() if it != sources.PROGRAM and crate.is_built()}
        self.progress.say(f"taverna: {len(self.crates)} crates to prove, {len(self.done)} of them proved already; {self.lanes} side by side")
        with self.changed:
            while self.left() or self.running:
                if not self.failed:
                    self.begin_ready()
                if not self.running:
                    break
                self.tell()
                self.changed.wait(timeout=1)
        return list(self.failed)


def note_seconds(logs, name, begun):
    """Notes what a crate took by the clock, beside others at the same time, for seconds.txt."""
    with open(f"{os.path.dirname(logs)}/seconds", "a", encoding="utf-8") as it:
        it.write(f"{name} {time.time() - begun:.0f}\n")


def processors(made):
    call = getattr(made, "processors", None)
    return call() if call else len(os.sched_getaffinity(0))


def free(made):
    call = getattr(made, "free", None)
    if call:
        return call()
    with open("/proc/meminfo", encoding="ascii") as it:
        return 1024 * int(re.search(r"MemAvailable:\s+(\d+)", it.read())[1])


def libraries(made, top, progress, jobs, logs):
    """Builds the libraries below the program."""
    library = made.rtlib
    library.guarded()
    if hasattr(made, "share_work"):
        made.share_work(True)
    lanes = Lanes(made, top, progress, jobs, logs)
    for it in lanes.crates.values():
        library.stop_on_links(it.folder) if hasattr(library, "stop_on_links") else None
    held = library.lock([*lanes.crates.values()])
    try:
        failed = lanes.run()
    finally:
        for it in held:
            os.close(it)
    if failed:
        raise Failed("\n".join(f"{it}: not proved. It ended so:\n{kit.tail(f'{logs}/{it}')}" for it in failed))
    return lanes


def program(words, top, progress, log, tell):
    """Runs what proves and builds the program itself. It ends by a run of the program, whose output and status are no part of what was asked for."""
    made = f"{top}/crates/{sources.PROGRAM}/out/{sources.PROGRAM}"
    had_stamp = os.path.isfile(f"{made}.stamp")
    if not had_stamp:
        sources.drop(made)
    with open(log, "w", encoding="utf-8") as out, kit.running(words, cwd=f"{top}/crates/{sources.PROGRAM}", stdout=out, stderr=out) as tool:
        while tool.poll() is None:
            tell()
            with contextlib.suppress(subprocess.TimeoutExpired):
                tool.wait(timeout=0.5)
    if not os.access(made, os.X_OK) or (had_stamp and not os.path.isfile(f"{made}.stamp")):
        raise Failed(f"'rt run' in crates/{sources.PROGRAM} shows all of it. It ended so:\n{kit.tail(log)}")
    return made


def crate_of(log):
    """The crate that `rt run` proves, as its log tells; nothing before the first."""
    with open(log, encoding="utf-8", errors="replace") as it:
        found = re.findall(r"(?m)^rt: (?:chose --jobs \d+ for (\w+)$|(\w+): another copy of the repository is building)", it.read())
    return "".join(found[-1]) if found else None


def in_turn(top, folder, progress, log):
    """Proves all by the kit's `rt run`, one crate after the other."""
    order = sources.crates(top)
    costs = seconds(top, order)

    def tell():
        crate = crate_of(log)
        before = order.index(crate) if crate in order else 0
        what = f"taverna: proving {crate}, crate {before + 1} of {len(order)}" if crate else "taverna: reading the sources"
        progress.show(what, sum(costs[it] for it in order[:before]) / sum(costs.values()))

    return program([f"{folder}/bin/rt", "run"], top, progress, log, tell)


def side_by_side(made, top, progress, jobs, logs):
    """Proves the libraries side by side, and then the program by what `rt run` does, which finds them built."""
    lanes = libraries(made, top, progress, jobs, logs)
    begun = time.time()
    lanes.running[sources.PROGRAM] = begun, 0, 1
    at = program([sys.executable, sources.HERE, "rt", "run"], top, progress, f"{logs}/{sources.PROGRAM}", lanes.tell)
    note_seconds(logs, sources.PROGRAM, begun)
    if not os.path.isfile(f"{at}.stamp"):
        raise Failed(f"the kit's rt says that the sources changed while it built the program:\n{kit.tail(f'{logs}/{sources.PROGRAM}')}")
    return at


def proved(top, folder, progress, jobs):
    """Proves and builds the program, and keeps it in out/proved. Answers whether: where a source changed meanwhile, it doesn't."""
    logs = f"{top}/out/proved/logs"
    os.makedirs(logs, exist_ok=True)
    build = sources.Build(top, "proved", folder)
    made, why = commands(folder)
    if why:
        progress.say(f"taverna: {why}, so one crate is proved after the other, by 'rt run'")
    try:
        if made:
            at = side_by_side(made, top, progress, jobs, logs)
        else:
            at = in_turn(top, folder, progress, f"{logs}/{sources.PROGRAM}")
    except Failed:
        if build.is_same():
            raise
        return False
    return build.begun is not None and build.keep(at)

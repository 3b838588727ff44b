"""Many workers: the program on documents by several numbers of them, held against what it does by one.

    python3 bench/workers.py same [--count 1000] [--seed 1]
    python3 bench/workers.py ends [--count 10000] [--seed 1]
    python3 bench/workers.py refused [--count 4]
    python3 bench/workers.py speed [--slow]
    python3 bench/workers.py races

`same` takes each document of tests/rows and of examples/, some that are generated, and so many random ones (with nested flows, faults,
retries, failover, control links, merges, crosses, dots and limits of jobs), and runs each by 1, 2, 3, 4, 8, 16 and 64 workers: status,
output and standard error must be those of a run that names no workers.
`ends` runs small documents so many times in all by 4 workers, each within a minute.
`refused` takes so many documents, and runs each by 2 and by 4 workers with each of its requests for memory of the C library refused in
turn: it must write what is due, or nothing with status 10 and the line of that. How often memory is taken differs from run to run.
`speed` prints the time on the clock by 1, 2 and 4 workers, of the best of five runs, and how many times that of one worker it is by
four. With `--slow` it does so of a program too whose services each compute for about a millisecond before they answer; it is told then
how many times as fast four workers are.
`races` runs three documents by 4 workers under a thread sanitizer, and prints each race that it tells of. Where valgrind is there, it
prints also what helgrind counts on the program; this says little, since helgrind doesn't see the locks of std, which are made of atomic
words, and so takes what they guard for unguarded.

Each prints what it counted; the status is 0 where nothing differs. The same seed draws the same documents. `--workers` is how many
programs run beside each other, 2 where it isn't said, and `--program` the program that is tried, crates/tv_main/out/tv_main where it
isn't said (rt ci builds it). `refused` wants a C compiler, `cc`. `--slow` and `races` build a program of their own by
`building.py`, in some minutes; `--keep FOLDER` keeps it there, and takes what is there already.
"""
import argparse
import os
import random
import re
import runpy
import shutil
import subprocess
import sys
import tempfile
import time
from collections import Counter

HERE = os.path.dirname(os.path.abspath(__file__))
TOP = os.path.dirname(HERE)
PARTS = os.path.join(HERE, "workers")
sys.path[:0] = [PARTS, os.path.join(HERE, "boards"), os.path.join(HERE, "frames")]

import building  # noqa: E402
import cases  # noqa: E402
import trials  # noqa: E402

NAME = "tv_main"
WORKERS = 1, 2, 3, 4, 8, 16, 64
FEW = 2, 4
TIMED = 1, 2, 4
TOGETHER = 10
NESTED = 50
TRIES = 5
# How many requests in turn a run must not come to, before it is taken for one that makes no more.
PATIENCE = 5
WANT = 10, b"", b"taverna: want of memory\n"
# The documents whose requests for memory are refused, by their names.
REFUSED = ["behind", "a cross of two lists", "failing", "the third attempt is right"]
# What changes in the program where its services are slow.
SLOWER = {
    "use tv_gate::GateAsker;": "use slow_services::SlowServices;\nuse tv_gate::{GateAsker, ScriptedGate};",
    "use tv_local::LocalGate;\n": "",
    "LocalGate::new()": "ScriptedGate::<SlowServices>::new()",
}


def folder_of(words, name):
    """The folder that a program is built in."""
    return trials.folder(words.keep and os.path.join(words.keep, name))


# The same bytes.


def differing(program, case, due, workers):
    """What differs by so many workers, if anything does."""
    came = cases.ended(program, case, workers)
    return [] if came == due else [(case, f"{case['name']}, by {workers} workers: {cases.told(came)}\ndue: {cases.told(due)}")]


def compared(program, piece):
    """Runs cases by each number of workers."""
    counts, differences = Counter(), []
    for case in piece:
        due = cases.ended(program, case)
        counts.update({"documents": 1, f"of status {due[0]}": 1})
        for workers in WORKERS:
            counts["runs"] += 1
            differences += differing(program, case, due, workers)
    return counts, differences


def pieces_of(whole, size):
    return [whole[at : at + size] for at in range(0, len(whole), size)]


def drawn(seed, count):
    draws = random.Random(seed)
    return [cases.of(cases.drawn(draws), f"random document {number}") for number in range(count)]


def same(words):
    return trials.work(compared, words.program, pieces_of(cases.worked() + drawn(words.seed, words.count), TOGETHER), words.workers)


def repeated(program, piece):
    """Runs each case of the piece so many times."""
    counts, differences = Counter(), []
    for case, times in piece:
        due = cases.ended(program, case)
        counts["documents"] += 1
        for _ in range(times):
            counts["runs"] += 1
            differences += differing(program, case, due, 4)
    return counts, differences


def ends(words):
    """Documents that run, in a few milliseconds: those of the rows that have less than a kilobyte, and some with nested flows."""
    small = [case for case in cases.worked() if 0 < len(case["document"]) < 1000 and cases.ended(words.program, case)[0] == 0]
    small += cases.features() + drawn(words.seed, NESTED)
    times = -(-words.count // len(small))
    return trials.work(repeated, words.program, pieces_of([(case, times) for case in small], 1), words.workers)


# Want of memory.


def in_turn(program, piece):
    """Runs a case with each request for memory refused in turn, until none comes to those that follow."""
    case, workers, library = piece
    sizes = runpy.run_path(os.path.join(TOP, "tests", "sizes", "run"))
    given, words = case["document"].encode(), " ".join(cases.words_of(case, workers))
    due, counts, differences = cases.ended(program, case), Counter(documents=1), []
    number = missed = 0
    while missed < PATIENCE:
        number += 1
        came, is_met = sizes["refusing"](program, library, words, given, number)
        missed = 0 if is_met else missed + 1
        counts.update({"refused": is_met, f"of status {came[0]}": is_met})
        if came != due and not (is_met and came == WANT):
            differences.append((case, f"{case['name']}, by {workers} workers without request {number}: {cases.told(came)}"))
    return counts, differences


def refused(words):
    found = {case["name"].removeprefix("row: "): case for case in cases.worked() + cases.features()}
    with tempfile.TemporaryDirectory() as folder:
        library = os.path.join(folder, "refuse.so")
        source = os.path.join(TOP, "tests", "sizes", "refuse.c")
        subprocess.run(["cc", "-O1", "-shared", "-fPIC", "-o", library, source], check=True)
        pieces = [(found[name], workers, library) for name in REFUSED[: words.count] for workers in FEW]
        return trials.work(in_turn, words.program, pieces, words.workers)


# Time.


def least_time(program, case, workers):
    """The least time on the clock of some runs, in milliseconds, and what the last ended with."""
    least = None
    for _ in range(TRIES):
        begun = time.perf_counter()
        end = cases.ended(program, case, workers)
        spent = (time.perf_counter() - begun) * 1000
        least = spent if least is None else min(least, spent)
    return least, end


def shapes(sizes):
    """Documents of bench/jobs in these sizes, with so many jobs of a step at once."""
    made = runpy.run_path(os.path.join(HERE, "jobs"))
    for shape, size, jobs in sizes:
        of = made["chain"](int(shape[5:])) if shape.startswith("chain") else made[shape]
        words, text = of(size)
        yield cases.case(f"{shape} of {size}, jobs {jobs}", cases.with_jobs(text, jobs) if text else text, *words), made["jobs_of"]


LOCAL = ("dot", 10_000, 8), ("dot", 10_000, 1), ("cross", 100, 8), ("chain20", 500, 8), ("nested", 1000, 8), ("gen", 100, "8 and 4")
SLOW = ("dot", 400, 64), ("dot", 400, 2), ("chain4", 100, 1), ("nested", 200, 8), ("after", 4, 8)


def table(program, sizes, head, told):
    """Prints a line for each shape. Whether all runs of each end alike."""
    print(f"{'document':28} {'jobs':>7} " + " ".join(f"{f'by {workers}':>8}" for workers in TIMED) + f"  {head}", flush=True)
    good = True
    for case, jobs_of in shapes(sizes):
        runs = [least_time(program, case, workers) for workers in TIMED]
        times, jobs = [spent for spent, _ in runs], jobs_of(runs[0][1][1])
        good = good and len({end for _, end in runs}) == 1 and runs[0][1][0] == 0
        print(f"{case['name']:28} {jobs:7} " + " ".join(f"{spent:8.1f}" for spent in times) + f"  {told(times):.2f}", flush=True)
    return good


def with_slow_services(folder):
    """The tree's crates, with a program whose services are slow."""
    building.more(folder, "slow_services", "tv_value tv_gate tv_local", [os.path.join(PARTS, "slow.rattle")])
    source = os.path.join(folder, "crates", "slow_services", "src")
    os.rename(os.path.join(source, "slow.rt"), os.path.join(source, "lib.rt"))
    changed(os.path.join(folder, "crates.txt"), {f"\n{NAME}: ": f"\n{NAME}: slow_services "})
    changed(os.path.join(folder, "crates", NAME, "src", "main.rt"), SLOWER)


def changed(path, changes):
    """Changes a file: each of these texts stands there once."""
    with open(path, encoding="utf-8") as it:
        text = it.read()
    for old, new in changes.items():
        if text.count(old) != 1:
            sys.exit(f"{path} hasn't {old!r} once")
        text = text.replace(old, new)
    with open(path, "w", encoding="utf-8") as it:
        it.write(text)


def speed(words):
    print(f"milliseconds on the clock, of the best of {TRIES} runs, with {os.cpu_count()} processors")
    good = table(words.program, LOCAL, "four over one", lambda times: times[-1] / times[0])
    if words.slow:
        with folder_of(words, "slow") as folder:
            program = building.built(folder, NAME, with_slow_services)
            print("with services that compute for about a millisecond")
            good = table(program, SLOW, "times as fast by four", lambda times: times[0] / times[-1]) and good
    return good


# Races.


def raced():
    held, (crossed, _) = cases.features(), next(shapes([("cross", 12, 8)]))
    return [case for case in held if case["name"] in ("behind", "failing")] + [crossed]


def races(words):
    with folder_of(words, "sanitized") as folder:
        program, found = building.sanitized(folder, NAME, building.crates), 0
        for case in raced():
            due = cases.ended(words.program, case)
            status, out, err = cases.ended(program, case, 4, env={**os.environ, "TSAN_OPTIONS": "exitcode=0"})
            told = re.findall(rb"^SUMMARY: (ThreadSanitizer: .*)$", err, re.M)
            print(f"{case['name']}: status {status}, {'the same' if out == due[1] else 'other'} bytes, {len(told)} races", flush=True)
            for line in sorted(set(told)):
                print(f"  {line.decode()}")
            found += len(told) + ((status, out) != due[:2])
    if shutil.which("valgrind"):
        helgrind(words.program)
    return not found


def helgrind(program):
    """What helgrind says of the program."""
    with tempfile.TemporaryDirectory() as folder:
        # (some valgrinds can't read newer forms of debug information)
        stripped = os.path.join(folder, NAME)
        subprocess.run(["strip", "--strip-debug", "-o", stripped, program], check=True)
        for case in raced():
            words = ["valgrind", "--tool=helgrind", stripped, *cases.words_of(case, 4)]
            ran = subprocess.run(words, input=case["document"].encode(), capture_output=True, timeout=600)
            said = re.search(rb"ERROR SUMMARY: (.*)", ran.stderr)
            print(f"{case['name']}, helgrind: status {ran.returncode}, {said.group(1).decode() if said else 'nothing'}", flush=True)


# What is done by each word, and how often where it isn't said.
COMMANDS = {"same": (same, 1000), "ends": (ends, 10_000), "refused": (refused, len(REFUSED)), "speed": (speed, 0), "races": (races, 0)}


def main():
    reader = argparse.ArgumentParser(description=__doc__, formatter_class=argparse.RawDescriptionHelpFormatter)
    reader.add_argument("command", choices=COMMANDS)
    reader.add_argument("--count", type=int)
    reader.add_argument("--seed", type=int, default=1)
    reader.add_argument("--slow", action="store_true")
    reader.add_argument("--program", default=os.path.join(TOP, "crates", NAME, "out", NAME))
    words = trials.words(reader)
    does, count = COMMANDS[words.command]
    words.count = count if words.count is None else words.count
    words.program = os.path.abspath(words.program)
    if not os.access(words.program, os.X_OK):
        sys.exit(f"{words.program} isn't built: rt ci builds it")
    sys.exit(0 if does(words) else 1)


if __name__ == "__main__":
    main()

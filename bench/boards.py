"""Boards in random order: `tv_board` is driven call by call, with several tries out, recalls and answers that come late, and held
against the document's meaning, worked out plainly, and against the line of one worker.

    python3 bench/boards.py trial [--orders 100] [--count 500] [--seed 1] [--workers 2]
    python3 bench/boards.py refusals [--seed 1] [--workers 2]

`trial` takes each worked document of nested flows (`boards/nests.py`: nested steps in a cross, behind control links, behind services
that fail and are tried again, with faults that are passed, two flows deep and more) in so many random orders, and so many random
documents with nested flows, each in one. After each call the entries that are new are held against the definition of a legal history,
and what the call answers against the state before it: whether something settles, the first ask in job order, where a job stands whose
answer comes late, what a task asks, how many are recalled, the totals. At the end the result line is that of one worker and that of the
meaning.
`refusals` goes through each worked document, and four random ones, in one order each, with each allocation refused in turn: a call of
the board that is refused leaves no entry, and where it is made again the case goes on as it does else; where something else is refused,
the program ends for want of memory. Each prints what it counted; the status is 0 where there is no difference. The same seed draws the
same cases.

`--keep FOLDER` keeps the program that is built there, and takes what is there already. It is built in some minutes by `building.py`,
which says what that wants.
"""
import argparse
import collections
import glob
import json
import os
import random
import subprocess
import sys

HERE = os.path.dirname(os.path.abspath(__file__))
PARTS = os.path.join(HERE, "boards")
sys.path[:0] = [PARTS, os.path.join(HERE, "frames")]

import building  # noqa: E402
import nests  # noqa: E402
import trials  # noqa: E402
from replay import replayed  # noqa: E402

TOGETHER = 20
CHECKED, REFUSED = b'{"checked":true}', b'{"refused"'
NAME = "boards"
USES = "tv_value tv_flow tv_gate tv_check tv_local tv_json tv_report tv_board tv_work serde_json anyhow"


def makes(folder):
    """The tree's crates, and the program as one more."""
    sources = glob.glob(os.path.join(PARTS, "*.rattle")) + [os.path.join(HERE, "frames", "drawing.rattle")]
    building.more(folder, NAME, USES, sources)


def text_of(cases):
    return "".join(json.dumps(case) + "\n" for case in cases).encode()


def tried(program, cases):
    """Runs cases to their ends and replays them."""
    counts, differences, found = collections.Counter(), [], []
    ran = subprocess.run([program], input=text_of(cases), capture_output=True)
    for line in ran.stdout.splitlines():
        line = json.loads(line)
        if "case" in line:
            found.append([])
        found[-1].append(line)
    if ran.returncode:
        differences.append((cases[max(0, len(found) - 1)], f"status {ran.returncode}: {ran.stderr.decode()}"))
        found = found[:-1]
    for case, lines in zip(cases, found):
        why = replayed(case, lines, counts)
        if why:
            differences.append((case, why))
    return counts, differences


def first(program, given):
    """The first allocation after those by which a case is read and checked."""
    low, high = 0, 1 << 20
    while high - low > 1:
        middle = (low + high) // 2
        if CHECKED in building.refusing(program, [], given, middle)[1]:
            high = middle
        else:
            low = middle
    return high


def refused(program, case):
    """Runs a case with each allocation refused in turn, from the board's start on, until none is."""
    given, counts, differences = text_of([case]), collections.Counter(documents=1), []
    whole = building.refusing(program, [], given, 0)[1].splitlines()
    for number in range(first(program, given), 1 << 24):
        status, written, beside, came = building.refusing(program, [], given, number)
        if not came:
            break
        lines = written.splitlines()
        kinds = [json.loads(line)["refused"] for line in lines if line.startswith(REFUSED)]
        counts.update(allocations=1, **collections.Counter(kinds or ["elsewhere"]))
        lines = [line for line in lines if not line.startswith(REFUSED)]
        if (lines != whole) if status == 0 else (kinds or b"memory" not in beside.lower() or lines != whole[: len(lines)]):
            differences.append((case, f"allocation {number}, {kinds}: status {status}: {beside.decode()}"))
    return counts, differences


def command(words, program):
    draws = random.Random(words.seed)
    if words.command == "trial":
        cases = nests.cases(draws, words.orders, words.count)
        return trials.work(tried, program, [cases[at : at + TOGETHER] for at in range(0, len(cases), TOGETHER)], words.workers)
    return trials.work(refused, program, nests.cases(draws, 1, 4), words.workers)


def main():
    reader = argparse.ArgumentParser(description=__doc__, formatter_class=argparse.RawDescriptionHelpFormatter)
    reader.add_argument("command", choices=["trial", "refusals"])
    reader.add_argument("--orders", type=int, default=100)
    reader.add_argument("--count", type=int, default=500)
    reader.add_argument("--seed", type=int, default=1)
    words = trials.words(reader)
    with trials.folder(words.keep) as folder:
        sys.exit(0 if command(words, building.built(folder, NAME, makes)) else 1)


if __name__ == "__main__":
    main()

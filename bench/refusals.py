"""Want of memory, whenever it comes: the program is run on worked rows with each of its allocations refused in turn, and each time it
must write all that is due, with the status that is due, or nothing with status 10 and the line of that on standard error.

    python3 bench/refusals.py [--workers 2] [ROW..]

The rows are those of `tests/rows/rows.json` by their names, and where none is given those of ROWS here. A row of a command that isn't
built yet is due the usage line with status 2. A line for each row says to which statuses the runs came in which an allocation was
refused; a run that came to anything else is printed. The status is 0 where there is none. The rows take a minute in all.

`--keep FOLDER` keeps the program that is built there, and takes what is there already. It is built in some minutes by `building.py`,
which says what that wants.
"""
import argparse
import collections
import concurrent.futures
import os
import runpy
import sys

HERE = os.path.dirname(os.path.abspath(__file__))
TOP = os.path.dirname(HERE)
sys.path.insert(0, HERE)

import building  # noqa: E402
import trials  # noqa: E402

NAME = "tv_main"
ROWS = [
    "a cross of two lists",
    "the third attempt is right",
    "both attempts fail",
    "a nested flow for each element",
    "the jobs inside nested flows that asked",
    "lineage of an element of a cross",
    "no such element",
    "what came of an element of a cross",
]
WANT = 10, b"", b"taverna: want of memory\n"


def rows(names):
    """For each of these rows its name, its words, its document and what is due."""
    held = runpy.run_path(os.path.join(TOP, "tests", "rows", "run"))
    found = {row["name"]: row for row in held["data"]("rows")}
    for name in names or ROWS:
        row = found[name]
        built = set(row["needs"]) <= held["BUILT"]
        due = (row["status"], row["out"].encode(), row["err"].encode()) if built else (2, b"", held["USAGE"])
        yield name, row["words"].split(), (row["document"] or "").encode(), due


def refused(program, row):
    """Runs a row with each allocation refused in turn, until none is."""
    name, words, document, due = row
    counts, wrong = collections.Counter(), []
    for number in range(1, 1 << 24):
        *came, met = building.refusing(program, words, document, number)
        if tuple(came) not in ((due,) if not met else (due, WANT)):
            wrong.append((number, came))
        if not met:
            break
        counts[came[0]] += 1
    return name, counts, wrong


def main():
    reader = argparse.ArgumentParser(description=__doc__, formatter_class=argparse.RawDescriptionHelpFormatter)
    reader.add_argument("rows", nargs="*", metavar="ROW")
    words = trials.words(reader)
    with trials.folder(words.keep) as folder:
        program = building.built(folder, NAME, building.crates)
        found = list(rows(words.rows))
        failed = 0
        with concurrent.futures.ThreadPoolExecutor(words.workers) as pool:
            for name, counts, wrong in pool.map(lambda row: refused(program, row), found):
                statuses = ", ".join(f"{count} of status {status}" for status, count in sorted(counts.items()))
                print(f"{name}: {sum(counts.values())} allocations refused, {statuses}, {len(wrong)} else", flush=True)
                for number, came in wrong[:5]:
                    print(f"  allocation {number} came to {came}")
                failed += len(wrong)
    sys.exit(1 if failed else 0)


if __name__ == "__main__":
    main()

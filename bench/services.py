#!/usr/bin/env python3
"""How the time of the four heavy local services grows: distinct and intersect on up to 100,000 texts, split of a text of up to
16 MB by one byte, and join of as many parts. Prints, of the best of three runs, the processor time of a whole run with the
making of its inputs, and its ratio to the size before.

    python3 bench/services.py [FOLDER]

The program that calls them (`calls/main.rattle`) is built in some minutes by `building.py`, in FOLDER where one is given, which keeps it.
"""
import os
import subprocess
import sys
import tempfile

HERE = os.path.dirname(os.path.abspath(__file__))
sys.path.insert(0, HERE)

import building  # noqa: E402

NAME = "tv_calls"

MEGABYTE = 1_000_000
TEXTS = (12_500, 25_000, 50_000, 100_000)
# Each part is one letter and a comma.
PARTS = tuple(size * MEGABYTE // 2 for size in (1, 2, 4, 8, 16))
RUNS = 3



def makes(folder):
    building.more(folder, NAME, "tv_local tv_gate tv_value anyhow", [os.path.join(HERE, "calls", "main.rattle")])


def measured(program):
    for service, counts in (("distinct", TEXTS), ("intersect", TEXTS), ("split", PARTS), ("join", PARTS)):
        before = None
        for count in counts:
            least = None
            for _ in range(RUNS):
                run = subprocess.Popen([program, service, str(count)], stdout=subprocess.DEVNULL)
                _, status, used = os.wait4(run.pid, 0)
                if status != 0:
                    sys.exit(f"{service} {count}: status {status}")
                spent = used.ru_utime + used.ru_stime
                least = spent if least is None else min(least, spent)
            ratio = f"{least / before:.2f}" if before else "-"
            print(f"{service:10} {count:9d} texts {least * 1000:7.0f} ms {ratio:>5}", flush=True)
            before = least


if __name__ == "__main__":
    with tempfile.TemporaryDirectory() as own:
        measured(building.built(sys.argv[1] if len(sys.argv) > 1 else own, NAME, makes))

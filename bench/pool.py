"""Times ten million puts, gets and releases of the pool, of a vector for each region, and of the pool's layout over raw memory
in plain Rust (`pool_raw.rs`, where a `rustc` is there), with many small regions and with few large ones: the least processor
time of five runs of each.

    python3 bench/pool.py [FOLDER]

The program that fills the pool (`pool/main.rattle`) is built in some minutes by `building.py`, in FOLDER where one is given, which keeps it.
"""
import glob
import os
import shutil
import subprocess
import sys
import tempfile

HERE = os.path.dirname(os.path.abspath(__file__))
sys.path.insert(0, HERE)

import building  # noqa: E402

NAME = "tv_fills"

COUNT = "10000000"
SHAPES = ((10, "many regions of 10"), (2_500_000, "4 regions of 2,500,000"))


def least_time(words):
    """The least processor time of five runs, in milliseconds, and what the last printed."""
    least = None
    for _ in range(5):
        run = subprocess.Popen(words, stdout=subprocess.PIPE)
        printed = run.stdout.read()
        _, status, used = os.wait4(run.pid, 0)
        if status != 0:
            sys.exit(f"{words}: status {status}")
        spent = (used.ru_utime + used.ru_stime) * 1000
        least = spent if least is None else min(least, spent)
    return least, printed


def makes(folder):
    building.more(folder, NAME, "tv_pool anyhow", glob.glob(os.path.join(HERE, "pool", "*.rattle")))


def main():
    with tempfile.TemporaryDirectory() as folder:
        program = building.built(sys.argv[1] if len(sys.argv) > 1 else folder, NAME, makes)
        layouts = {name: [program, name] for name in ("pool", "vectors")}
        if shutil.which("rustc"):
            raw = os.path.join(folder, "pool_raw")
            source = os.path.join(HERE, "pool_raw.rs")
            subprocess.run(["rustc", "-O", "--edition", "2021", "-o", raw, source], check=True)
            layouts["raw memory"] = [raw]
        for size, shape in SHAPES:
            sums = set()
            for name, words in layouts.items():
                spent, printed = least_time(words + [str(size), COUNT])
                sums.add(printed)
                print(f"{name}, {shape}: {spent:.0f} ms")
            if len(sums) != 1:
                sys.exit("the layouts read different sums")


if __name__ == "__main__":
    main()

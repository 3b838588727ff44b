"""The matcher's code as plain Rust, with its contracts taken off: counts its instructions for each thing that comes out, or tries
it on made-up strategies and values against the iteration of the whole values, or that with each allocation refused in turn. What
is counted is the whole run of the program, from its start on, of each shape without `reserve` and with one before each arrival.

    python3 bench/matching.py measure
    python3 bench/matching.py trial SEED COUNT
    python3 bench/matching.py refused SEED COUNT

Wants a rustc, and valgrind to measure. The code that is tried is that of crates/tv_match; what it uses of the libraries below is
in bench/matching/shim.rs.
"""
import os
import re
import subprocess
import sys
import tempfile

sys.path.insert(0, os.path.dirname(os.path.abspath(__file__)))

import plain  # noqa: E402

SHAPES = {
    "cross": (250, 500, 1000),
    "dot": (125_000, 250_000, 500_000, 1_000_000),
    "prefix": (12_500, 25_000, 50_000, 100_000),
    "late": (12_500, 25_000, 50_000, 100_000),
    "three": (25, 50, 100),
    "beside": (12_500, 25_000, 50_000),
}


def built(folder, program):
    """Builds a program of bench/matching over the crate."""
    main = ""
    for name, text in plain.files("tv_match"):
        text = text.replace("use std::alloc::Global;", "use crate::shim::Global;").replace(".as_slice().to_vec(alloc)", ".copied(alloc)")
        text = re.sub(r"use tv_(value|strategy)::", "use crate::shim::", text)
        if name == "lib":
            main = text
        else:
            plain.write(folder, name, f"use crate::shim::{{Box, Vec}};\n{text}")
    return plain.built(folder, "matching", program, main)


def measure(folder):
    program = built(folder, "measure")
    for shape, counts in SHAPES.items():
        for count in counts:
            for held in ([], ["held"]):
                words = ["valgrind", "--tool=callgrind", "--callgrind-out-file=/dev/null", program, shape, str(count), *held]
                run = subprocess.run(words, capture_output=True, text=True, check=True)
                items = int(run.stdout.split()[0])
                spent = int(re.search(r"Collected : (\d+)", run.stderr).group(1))
                print(f"{' '.join(words[4:])}: {items} items, {spent / items:.0f} instructions each", flush=True)


def main():
    with tempfile.TemporaryDirectory() as folder:
        if sys.argv[1:2] == ["trial"]:
            sys.exit(subprocess.run([built(folder, "trial"), *sys.argv[2:]]).returncode)
        if sys.argv[1:2] == ["refused"]:
            sys.exit(subprocess.run([built(folder, "trial"), *sys.argv[2:], "refused"]).returncode)
        measure(folder)


if __name__ == "__main__":
    main()

"""The records of lineage as plain Rust, with their contracts taken off: counts what a noted record and the queries cost, or tries
them on made-up records against a plain closure, with each allocation refused in turn.

    python3 bench/lineage.py measure
    python3 bench/lineage.py trial SEED COUNT

Wants a rustc, and valgrind to measure. The code that is tried is that of crates/tv_lineage; what it uses of the libraries below
is in bench/lineage/shim.rs.
"""
import os
import re
import subprocess
import sys
import tempfile

sys.path.insert(0, os.path.dirname(os.path.abspath(__file__)))

import plain  # noqa: E402

ELEMENTS = (25_000, 50_000, 100_000)
PHASES = ("note_all", "go_back", "go_on", "list_jobs")


def shimmed(text):
    """A file of the crate over the shim."""
    text = re.sub(r"vec!\[in alloc; (\w+); ([^\]]+)\]", r"crate::shim::filled(alloc, \1, \2)", text)
    text = re.sub(r"vec!\[in alloc; (.*)\]\?", r"crate::shim::one(alloc, \1)?", text)
    text = text.replace("std::alloc::Global", "crate::shim::Global")
    return text.replace("std::collections::", "crate::shim::").replace("tv_value::", "crate::shim::")


def built(folder, program):
    """Builds a program of bench/lineage over the crate."""
    main = ""
    for name, text in plain.files("tv_lineage"):
        if name == "lib":
            main = shimmed(text)
        else:
            plain.write(folder, name, f"use crate::shim::Vec;\n{shimmed(text)}")
    return plain.built(folder, "lineage", program, main, "-g")


def spent_in(costs):
    """The instructions of each phase, with all that it calls."""
    told = subprocess.run(["callgrind_annotate", "--inclusive=yes", "--threshold=100", costs], capture_output=True, text=True, check=True)
    spent = {}
    for phase in PHASES:
        found = re.search(rf"^\s*([\d,]+)[^\n]*::{phase}\b", told.stdout, flags=re.M)
        spent[phase] = int(found.group(1).replace(",", ""))
    return spent


def measure(folder):
    program = built(folder, "measure")
    costs = os.path.join(folder, "costs")
    for elements in ELEMENTS:
        words = ["valgrind", "--tool=callgrind", f"--callgrind-out-file={costs}", program, str(elements)]
        run = subprocess.run(words, capture_output=True, text=True, check=True)
        records, kept, most = map(int, run.stdout.split())
        spent = spent_in(costs)
        each = ", ".join(f"{phase} {spent[phase] / records:.0f}" for phase in PHASES)
        print(f"{elements} elements: {records} records, {kept / records:.0f} bytes each (at most {most / records:.0f}), instructions each: {each}", flush=True)


def main():
    with tempfile.TemporaryDirectory() as folder:
        if sys.argv[1:2] == ["trial"]:
            sys.exit(subprocess.run([built(folder, "trial"), *sys.argv[2:]]).returncode)
        measure(folder)


if __name__ == "__main__":
    main()

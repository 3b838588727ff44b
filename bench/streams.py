"""The partial trees' code as plain Rust, with its contracts taken off: counts its instructions and bytes for each part that
arrives, or tries it on made-up events against what the events alone say.

    python3 bench/streams.py measure
    python3 bench/streams.py trial [SEED]

Wants a rustc, and valgrind to measure. The code that is tried is that of crates/tv_stream and crates/tv_pool;
what it uses of the libraries below is in bench/streams/shim.rs.
"""
import os
import re
import subprocess
import sys
import tempfile

sys.path.insert(0, os.path.dirname(os.path.abspath(__file__)))

import plain  # noqa: E402

CRATES = ("tv_pool", "tv_stream")
ORDERS = ("forward", "backward", "random")
COUNTS = (250_000, 500_000, 1_000_000)
MAIN = """macro_rules! prove { ($($t:tt)*) => {} }
mod tv_pool;
mod tv_stream;
"""


def shimmed(text, crate):
    """A file of a crate over the shim, as a module of it."""
    text = re.sub(r"^\s*#\[error\([^\n]*\)\]\n", "", text, flags=re.M)
    text = text.replace("use thiserror::Error;\n", "").replace(", Error)]", ")]")
    text = re.sub(r"<(\w): Drop>", r"<\1>", text)
    text = re.sub(r"^\s*T: Drop,\n", "", text, flags=re.M)
    text = text.replace("use crate::", f"use crate::{crate}::")
    for name in CRATES:
        text = text.replace(f"use {name}::", f"use crate::{name}::")
    for name in ("use std::alloc::", "use slab::", "use tv_value::"):
        text = text.replace(name, "use crate::shim::")
    return text


def built(folder, program):
    """Builds a program of bench/streams over the crates."""
    for crate in CRATES:
        for name, text in plain.files(crate):
            plain.write(folder, os.path.join(crate, "mod" if name == "lib" else name), shimmed(text, crate))
    return plain.built(folder, "streams", program, MAIN)


def measure(program):
    """Prints the instructions and bytes a part of a program that takes an order and a count."""
    for order in ORDERS:
        for count in COUNTS:
            words = ["valgrind", "--tool=callgrind", "--callgrind-out-file=/dev/null", "--toggle-collect=*put_all_parts*", program, order, str(count)]
            run = subprocess.run(words, capture_output=True, text=True, check=True)
            spent = int(re.search(r"Collected : (\d+)", run.stderr).group(1))
            print(f"{order} {count}: {spent / count:.0f} instructions a part, {run.stdout.strip()}", flush=True)


def main():
    if sys.argv[1:2] not in (["measure"], ["trial"]):
        sys.exit(__doc__)
    with tempfile.TemporaryDirectory() as folder:
        program = built(folder, sys.argv[1])
        if sys.argv[1] == "trial":
            sys.exit(subprocess.run([program, *sys.argv[2:]]).returncode)
        measure(program)


if __name__ == "__main__":
    main()

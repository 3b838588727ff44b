"""Crates as plain Rust with their contracts taken off, which rustc builds: what matching.py, streams.py and lineage.py have in common.

Tests and laws stay out. What the crates use of the libraries below them is in the `shim.rs` of a folder here, beside its programs.
"""
import glob
import os
import re
import shutil
import subprocess

HERE = os.path.dirname(os.path.abspath(__file__))
CRATES = os.path.join(os.path.dirname(HERE), "crates")


def without_clauses(text):
    """The text without its clauses, each of which ends where its braces do."""
    kept = []
    depth = 0
    for line in text.split("\n"):
        if depth == 0 and not re.match(r"\s*(requires|ensures)\b", line):
            kept.append(line)
            continue
        depth += line.count("{") - line.count("}")
    return "\n".join(kept)


def plain(text):
    """A file of a crate as plain Rust, but for the names of what it uses."""
    text = re.sub(r"^\s*//!.*\n", "", text, flags=re.M)
    text = re.sub(r"^\s*ghost use [^\n]*\n", "", text, flags=re.M)
    text = re.sub(r"^impl(<\w+>)? Model for [^\n]* \{.*?\n\}\n", "", text, flags=re.M | re.S)
    text = re.sub(r"#!?\[(cycle|tactic)\(\w+\)\]\n", "", without_clauses(text))
    text = re.sub(r"#\[cfg\(test\)\]\nmod tests;\n|pub mod laws;\n|use std::marker::Model;\n", "", text)
    return re.sub(r"^(#\[derive\(.*), Drop\b", r"\1", text.replace("#[derive(Drop)]\n", ""), flags=re.M)


def files(crate):
    """The files of a crate: the path of each below its folder, without its ending, and its text as plain Rust."""
    top = os.path.join(CRATES, crate, "src")
    for path in sorted(glob.glob(os.path.join(top, "**", "*.rt"), recursive=True)):
        name = os.path.relpath(path, top)[: -len(".rt")]
        if name.split(os.sep)[0] in ("tests", "laws"):
            continue
        with open(path, encoding="utf-8") as it:
            yield name, plain(it.read())


def write(folder, name, text):
    """A module of the program in this folder."""
    path = os.path.join(folder, f"{name}.rs")
    os.makedirs(os.path.dirname(path), exist_ok=True)
    with open(path, "w", encoding="utf-8") as it:
        it.write(text)


def built(folder, kind, program, main, *flags):
    """Builds a program of bench/KIND over the modules that were written into this folder, and this text of the main one."""
    main = f"#![allow(dead_code, unused_imports, unused_labels)]\n{main}\nmod shim;\nmod {program};\nfn main() {{ {program}::main() }}\n"
    write(folder, "main", main)
    for name in ("shim", program):
        shutil.copy(os.path.join(HERE, kind, f"{name}.rs"), folder)
    out = os.path.join(folder, program)
    words = ["rustc", "-O", *flags, "--edition", "2021", "-A", "warnings", "-o", out, os.path.join(folder, "main.rs")]
    subprocess.run(words, check=True)
    return out

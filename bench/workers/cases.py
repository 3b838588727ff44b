"""Documents for many workers: those of the rows and the examples, worked ones of nested flows, and random ones; and how a program ends
on them. A case has a name, the words and the text of a document."""
import json
import os
import runpy
import subprocess

import nests

HERE = os.path.dirname(os.path.abspath(__file__))
TOP = os.path.dirname(os.path.dirname(HERE))
SECONDS = 60
JOBS = [1, 1, 2, 3, 8, 64]
NUMBERS = 1, 10, 12, 30, 100


def case(name, text, *words):
    return {"name": name, "words": [*words] or ["run"], "document": text}


def of(document, name):
    """A case of a document."""
    return case(name, json.dumps(document))


def worked():
    """Each document of the rows and of the examples, once, and some that are generated."""
    rows = runpy.run_path(os.path.join(TOP, "tests", "rows", "run"))
    found = {}
    for kind in "due_rows", "examples":
        for name, _, document, _, _ in rows[kind]():
            found.setdefault(document.decode(), name)
    cases = [case(name, text) for text, name in found.items()]
    return cases + [case(f"gen {number}", "", "gen", str(number)) for number in NUMBERS]


def features():
    """A document for each feature of nested flows."""
    return [of(feature(), feature.__name__) for feature in nests.FEATURES]


def drawn(draws):
    """A random document with nested flows, faults, retries, failover, control links, merges and strategies. How many jobs of a step may
    run at once is drawn anew, and in every second document the lists that are given are longer."""
    document = nests.drawn(draws)
    for flow in document["flows"].values():
        for step in flow["steps"].values():
            step["jobs"] = draws.choice(JOBS)
    if draws.random() < 0.5:
        times = draws.randint(2, 6)
        given = document["inputs"].items()
        document["inputs"] = {name: value * times if isinstance(value, list) else value for name, value in given}
    return document


def with_jobs(text, jobs):
    """A document with so many jobs of each step at once."""
    document = json.loads(text)
    for flow in document["flows"].values():
        for step in flow["steps"].values():
            step["jobs"] = jobs
    return json.dumps(document)


def words_of(of_case, workers):
    """The words of a case for so many workers; none are named for none."""
    return [*of_case["words"], *(["--workers", str(workers)] if workers else [])]


def ended(program, of_case, workers=None, **how):
    """The status, output and standard error of a program on a case, by so many workers."""
    words = [program, *words_of(of_case, workers)]
    try:
        ran = subprocess.run(words, input=of_case["document"].encode(), capture_output=True, timeout=SECONDS, **how)
    except subprocess.TimeoutExpired:
        return f"no end within {SECONDS} seconds", b"", b""
    return ran.returncode, ran.stdout, ran.stderr


def told(end):
    status, out, err = end
    return f"status {status}, {len(out)} bytes {out[:200]!r}, {err[:200]!r}"

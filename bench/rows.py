"""Holds the worked rows of tests/rows against what their documents mean, worked out plainly in Python (`boards/meaning.py`), with no
program at hand: the result lines of `run`, the jobs that asked of `trace`, the depths of `check`, the elements of `lineage` and
`forward`, and what `upgrade` writes.

    python3 bench/rows.py
    python3 bench/rows.py due WORD.. < DOCUMENT

Rows of the status 0 are held, but for a loop that would be run, and values of other kinds than texts, integers and lists. `due` writes
what is due of one document. Rows that differ are printed; the status is 0 where there is none.
"""
import json
import os
import sys

HERE = os.path.dirname(os.path.abspath(__file__))
sys.path[:0] = [os.path.join(HERE, "boards"), os.path.join(HERE, "frames")]

from meaning import line_of, meaning_of  # noqa: E402
from model import Told, by_rank, depth_of, strategy_of, tree_depth  # noqa: E402

COMMANDS = "run", "trace", "check", "lineage", "forward", "upgrade"


def is_plain(value):
    """Whether a value is of texts, integers and lists alone."""
    return all(map(is_plain, value)) if isinstance(value, list) else type(value) in (str, int)


def is_due(words, document):
    """Whether the model says what it means."""
    steps = [step for flow in document["flows"].values() for step in flow.get("steps", {}).values()]
    goes_once = words[0] in ("check", "upgrade") or all("loop" not in step for step in steps)
    return goes_once and all(map(is_plain, document.get("inputs", {}).values()))


def texts(value):
    """A value with its integers as texts."""
    return list(map(texts, value)) if isinstance(value, list) else str(value)


def filled(document):
    """The document with all fields but those that may be absent."""
    flows, inputs = {}, document.get("inputs", {})
    for name, flow in document["flows"].items():
        steps = {}
        for other, step in flow.get("steps", {}).items():
            steps[other] = {"inputs": {}, "outputs": {}, "retries": 0, "jobs": 1, **step, "after": sorted(set(step.get("after", [])))}
        flows[name] = {"inputs": {}, **flow, "steps": steps}
    return {**document, "flows": flows, "inputs": {name: texts(value) for name, value in inputs.items()}}


def compact(tree):
    return json.dumps(tree, ensure_ascii=False, separators=(",", ":"), sort_keys=True) + "\n"


def settled(told):
    """Settles all lists and faults that can be, and all jobs that hold an error, until there is none."""
    while True:
        found = {("level", *level) for level in told.settleable()}
        found |= {("job", *job) for job in told.ready() if told.holds_error(job)}
        if not found:
            return
        told.happened |= found
        told.taken |= {node[1:] for node in found if node[0] == "job"}


def asked(whole):
    """The jobs that asked, in order, each with the number of its tries."""
    told, found = Told(whole), []
    while True:
        settled(told)
        ready = told.ready()
        if not ready:
            return found
        step, place = ready[0]
        job = whole.ends[step, place]
        tries = sum(right is not None for _, _, right in job.tries)
        if tries:
            found.append((f"{whole.prefix}{text_of(step, place)}", tries))
        if job.nested:
            found += asked(job.nested)
        told.taken.add((step, place))
        told.happened.add(("job", step, place))


def text_of(name, place):
    return f"{name}[{','.join(map(str, place))}]"


def element_of(text):
    """A name and a place."""
    name, _, place = text[:-1].partition("[")
    return name, tuple(int(index) for index in place.split(",") if index)


def given_to(whole, marks):
    """The elements of inputs that marks lead to."""
    found, seen, left = set(), set(), list(marks)
    while left:
        kind, name, place = mark = left.pop()
        if mark in seen:
            continue
        seen.add(mark)
        if kind == "given":
            found.add((name, place))
        else:
            left += whole.steps[name].used[place]
    return found


def leaves(value, place=()):
    """The texts and faults in a value, with their places."""
    if not isinstance(value.value, list):
        return [(place, value)]
    return [leaf for at, item in enumerate(value.value) for leaf in leaves(item, place + (at,))]


def lineage(whole, element):
    name, place = element
    value = whole.ended[name]
    for index in place:
        value = value.value[index]
    return sorted(given_to(whole, value.used()))


def forward(whole, element):
    """The leaves of outputs that an element is in, or what stands around it or in it."""
    name, place = element
    found = []
    for port, value in whole.ended.items():
        for at, leaf in leaves(value):
            inside = [q for x, q in given_to(whole, leaf.used()) if x == name]
            if any(q[: len(place)] == place[: len(q)] for q in inside):
                found.append((port, at))
    return found


def depth_lines(name, flow):
    """What ports of a flow's steps are delivered, and its outputs."""
    steps, depths, lines = flow["steps"], {}, []
    for step in by_rank(steps):
        more = {port: depth_of(flow, depths, it["from"]) - it["depth"] for port, it in steps[step]["inputs"].items()}
        depths[step] = tree_depth(strategy_of(steps[step]), {port: max(0, levels) for port, levels in more.items()})
    for step in sorted(steps):
        for port, it in sorted(steps[step]["inputs"].items()):
            lines.append(f"in {name} {step} {port} {it['depth']} {depth_of(flow, depths, it['from'])}\n")
        for port, depth in sorted(steps[step]["outputs"].items()):
            lines.append(f"out {name} {step} {port} {depth} {depth + depths[step]}\n")
    return lines + [f"flow {name} {port} {depth_of(flow, depths, feed)}\n" for port, feed in sorted(flow["outputs"].items())]


def due(words, document):
    """What the program writes at these words."""
    document = filled(document)
    if words[0] == "upgrade":
        return compact({**document, "taverna": 2})
    if words[0] == "check":
        return "".join(line for name in sorted(document["flows"]) for line in depth_lines(name, document["flows"][name]))
    whole = meaning_of(document)
    if words[0] == "run":
        return compact(line_of(whole))
    if words[0] == "trace":
        return "".join(f"{name} {tries}\n" for name, tries in asked(whole))
    follows = lineage if words[0] == "lineage" else forward
    return "".join(text_of(*found) + "\n" for found in follows(whole, element_of(words[-1].rpartition("=")[2])))


def rows():
    for name in "rows", "more":
        with open(f"{HERE}/../tests/rows/{name}.json", encoding="utf-8") as file:
            yield from json.load(file)


def main():
    if sys.argv[1:2] == ["due"]:
        sys.stdout.write(due(sys.argv[2:], json.load(sys.stdin)))
        return 0
    same = differences = 0
    for row in rows():
        words = row["words"].split()
        if row["status"] != 0 or words[:1] == [] or words[0] not in COMMANDS:
            continue
        document = json.loads(row["document"])
        if not is_due(words, document):
            continue
        wanted = due(words, document)
        if wanted == row["out"]:
            same += 1
        else:
            differences += 1
            print(f"{row['name']}:\n  due:  {wanted!r}\n  says: {row['out']!r}")
    print(f"{same} rows as due, {differences} differences")
    return 1 if differences else 0


if __name__ == "__main__":
    sys.exit(main())

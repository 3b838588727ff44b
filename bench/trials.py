"""Runs cases beside each other, and prints what was counted and what differs: what the programs here that try cases have in common."""
import collections
import concurrent.futures
import contextlib
import json
import os
import tempfile


@contextlib.contextmanager
def folder(keep):
    """The folder that a program is built in: this one, which stays, or one of its own."""
    with tempfile.TemporaryDirectory() as made:
        if keep:
            os.makedirs(keep, exist_ok=True)
        yield os.path.abspath(keep or made)


def words(reader):
    """The words of the command line, those among them that each of the programs takes."""
    reader.add_argument("--workers", type=int, default=2)
    reader.add_argument("--keep")
    return reader.parse_args()


def work(does, program, pieces, workers):
    """Does this with each piece, and prints what was counted and what differs."""
    counts, differences = collections.Counter(), []
    with concurrent.futures.ProcessPoolExecutor(workers) as pool:
        for more, others in pool.map(does, [program] * len(pieces), pieces):
            counts += more
            differences += others
    for case, why in differences[:5]:
        print(f"{why}\n{json.dumps(case)}")
    print(", ".join(f"{count} {name}" for name, count in counts.items()) + f", {len(differences)} differences", flush=True)
    return not differences

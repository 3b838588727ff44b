"""The program's word on a document."""
import os
import re
import subprocess
import sys
import tempfile

from linting.findings import CHECK_LINE, FORM_LINE, path_of

SPOTS = (
    (r"main", ("main",), False),
    (r"flow (\w+) step (\w+) input (\w+)", ("flows", 1, "steps", 2, "inputs", 3), True),
    (r"flow (\w+) step (\w+) output (\w+)", ("flows", 1, "steps", 2, "outputs", 3), True),
    (r"flow (\w+) step (\w+) activity \d+", ("flows", 1, "steps", 2, "activities"), True),
    (r"flow (\w+) step (\w+) after \d+", ("flows", 1, "steps", 2, "after"), True),
    (r"flow (\w+) step (\w+) loop", ("flows", 1, "steps", 2, "loop"), True),
    (r"flow (\w+) step (\w+)", ("flows", 1, "steps", 2), True),
    (r"flow (\w+) output (\w+)", ("flows", 1, "outputs", 2), True),
    (r"flow (\w+)", ("flows", 1), True),
    (r"input (\w+)", ("inputs", 1), True),
)
PASSED_ON = set()  # lines of standard error that were passed on, each once
WORDS = re.compile(r"taverna: (form fault|check fault|not JSON|input longer|read fault|want of memory|write fault)")


class CannotAsk(Exception):
    """The program couldn't be run, or didn't end by itself."""


def asked(program, given):
    """The status that `check` ends with on these bytes, and its line. Each other line on standard error is passed on once."""
    line = ""
    try:
        with tempfile.TemporaryFile() as document:
            document.write(given)
            document.seek(0)
            ran = subprocess.Popen([program, "check"], stdin=document, stdout=subprocess.DEVNULL, stderr=subprocess.PIPE)
            with ran:
                for said in ran.stderr:
                    said = said.decode("utf-8", "replace")
                    if WORDS.match(said):
                        line = said.strip("\n")
                    elif said not in PASSED_ON:
                        PASSED_ON.add(said)
                        sys.stderr.write(said)
    except OSError as error:
        raise CannotAsk(f"{program} can't be run ({error.strerror})") from None
    if ran.returncode < 0:
        raise CannotAsk(f"{program} was ended by signal {-ran.returncode}")
    if ran.returncode and not line:
        raise CannotAsk(f"{program} ended with status {ran.returncode} and no word of its own")
    return ran.returncode, line


def place_of(line):
    """The path of what the program's line names, and whether its key is meant."""
    form = FORM_LINE.fullmatch(line)
    if form:
        return path_of(form[3]) or (), form[2] in ("unknown", "bad name")
    check = CHECK_LINE.fullmatch(line)
    for spot, path, is_key in SPOTS if check else ():
        found = re.fullmatch(spot, check[3])
        if found:
            return tuple(found[it] if isinstance(it, int) else it for it in path), is_key
    return (), False


def default_program(top):
    return os.environ.get("TAVERNA") or f"{top}/taverna"

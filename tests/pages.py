"""Runs the commands of a page, and holds what they print against what the page says."""
import os
import re
import shutil
import subprocess
import tempfile

TOP = os.path.dirname(os.path.dirname(os.path.realpath(__file__)))


def held(page, program):
    """For each `$ COMMAND` of the page's console blocks: the command, whether it printed the lines below it, and those that came.

    A block that begins with three backquotes, a word and a name is first written to a file of that name. A command that draws a
    picture is left out where Graphviz's dot is wanting.
    """
    with open(f"{TOP}/{page}", encoding="utf-8") as file:
        text = file.read()
    with tempfile.TemporaryDirectory() as folder:
        os.symlink(program, f"{folder}/taverna")
        for name in ("examples", "docs", "tools"):
            os.symlink(f"{TOP}/{name}", f"{folder}/{name}")
        for kind, name, body in re.findall(r"^```(\w+)(?: (\S+))?\n(.*?)^```$", text, re.M | re.S):
            if name:
                with open(f"{folder}/{name}", "w", encoding="utf-8") as file:
                    file.write(body)
            for block in re.split(r"^\$ ", body, flags=re.M)[1:] if kind == "console" else ():
                command, due = block.split("\n", 1)
                if re.search(r"--html|<svg", command) and not shutil.which("dot"):
                    continue
                how = {"cwd": folder, "stdin": subprocess.DEVNULL, "stdout": subprocess.PIPE, "stderr": subprocess.STDOUT}
                ran = subprocess.run(["sh", "-c", command], env={**os.environ, "TAVERNA": program}, timeout=120, **how)
                came = ran.stdout.decode("utf-8", "replace")
                yield f"{page}: {command}", came == due, came


def program_of(words):
    """The program that is tried: the first word, else the variable TAVERNA, else the built one. None where it isn't there."""
    program = os.path.abspath(words[0] if words else os.environ.get("TAVERNA") or f"{TOP}/crates/tv_main/out/tv_main")
    if os.access(program, os.X_OK):
        return program
    print(f"{program} isn't built\n0 passed, 1 failed")
    return None


def counted(cases):
    """Prints what failed of these cases, and then the numbers; gives the status."""
    passed = failed = 0
    for what, good, came in cases:
        passed, failed = passed + bool(good), failed + (not good)
        if not good:
            print(f"FAILED: {what}: {came}")
    print(f"{passed} passed, {failed} failed")
    return 1 if failed or not passed else 0

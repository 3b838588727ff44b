"""The program, and what it answers."""
import json
import os
import subprocess
import sys
import tempfile

TOP = os.path.dirname(os.path.dirname(os.path.dirname(os.path.realpath(__file__))))


class Refused(Exception):
    """The program ended with this status, which isn't 0."""

    def __init__(self, status):
        super().__init__(f"status {status}")
        self.status = status


class Program:
    """./taverna, or the program that the variable TAVERNA names."""

    def __init__(self):
        self.path = os.environ.get("TAVERNA") or f"{TOP}/taverna"
        self.passed_on = set()  # lines of standard error

    def answer(self, *words, document, is_quiet=False):
        """What the program writes for these words and this document, which is bytes or a JSON tree.

        What it says on standard error is passed on as it comes, each line once, but where it is asked quietly.
        """
        # (from a file, so that a program may leave off reading, and into one, so that standard error is read meanwhile)
        with tempfile.TemporaryFile() as given, tempfile.TemporaryFile() as told:
            given.write(document if isinstance(document, bytes) else compact(document).encode())
            given.seek(0)
            try:
                ran = subprocess.Popen([self.path, *words], stdin=given, stdout=told, stderr=subprocess.PIPE)
            except OSError as error:
                stop(f"{self.path} can't be run ({error.strerror})")
            with ran:
                for line in ran.stderr:
                    if not is_quiet and line not in self.passed_on:
                        self.passed_on.add(line)
                        print(line.decode("utf-8", "replace"), end="", file=sys.stderr, flush=True)
            told.seek(0)
            answer = told.read().decode("utf-8", "replace")
        if ran.returncode < 0:
            stop(f"the program was ended by signal {-ran.returncode}")
        if ran.returncode:
            raise Refused(ran.returncode)
        return answer

    def result(self, document, is_quiet=False):
        """What `run` writes of this document, as a JSON tree."""
        try:
            return json.loads(self.answer("run", document=document, is_quiet=is_quiet))
        except ValueError:
            return stop(f"what {self.path} writes for run is no result")


def compact(tree):
    return json.dumps(tree, ensure_ascii=False, separators=(",", ":"))


def stop(text, status=1):
    """Ends with this status, after a line on standard error."""
    print(f"tools/{os.path.basename(sys.argv[0])}: {text}", file=sys.stderr)
    sys.exit(status)


def write(given):
    """Writes a text or bytes on standard output."""
    try:
        with open(1, "wb", closefd=False) as out:
            out.write(given if isinstance(given, bytes) else given.encode("utf-8", "replace"))
    except OSError as error:
        stop(f"it can't be written ({error.strerror})")


def bytes_of(path):
    """The bytes of a file; `-` is standard input. Status 3 where it can't be read, as the program's own."""
    try:
        if path == "-" and sys.stdin is None:
            stop("standard input is closed", 3)
        if path == "-":
            return sys.stdin.buffer.read()
        with open(path, "rb") as file:
            return file.read()
    except OSError as error:
        stop(f"{path}: {error.strerror}", 3)

"""Says on standard error how far a build is."""
import sys
import time


class Progress:
    """On a terminal one line that renews itself, elsewhere a line for each tenth of the whole and each new piece of work."""

    def __init__(self):
        self.begun, self.shown = time.time(), None
        self.is_terminal = sys.stderr.isatty()

    def so_far(self):
        seconds = int(time.time() - self.begun)
        return f"{seconds // 60} min {seconds % 60} s"

    def show(self, what, share=None):
        """`share` is from 0 to 1: the last hundredth is left for the end itself."""
        hundredths = None if share is None else min(int(100 * share), 99)
        if self.is_terminal:
            much = "" if hundredths is None else f", {hundredths} %"
            self.put(f"\r{what}{much}, {self.so_far()} so far\033[K")
        elif (what, hundredths and hundredths // 10) != self.shown:
            much = "" if hundredths is None else f", {hundredths} %"
            self.put(f"{what}{much}, after {self.so_far()}\n")
        self.shown = what, hundredths and hundredths // 10

    def say(self, line):
        """A line that stays, in the place of the one that renews itself."""
        if self.is_terminal and self.shown:
            self.put("\r\033[K")
        self.put(f"{line}\n")
        self.shown = None

    def put(self, text):
        try:
            sys.stderr.write(text)
            sys.stderr.flush()
        except OSError:
            pass  # (nobody reads it any more)

"""The kit's own commands: as modules where that saves time, and as processes that end when this one does."""
import contextlib
import fcntl
import importlib.machinery
import importlib.util
import os
import signal
import subprocess
import sys
import threading
import time


class Stopped(Exception):
    """A signal asked this process to end."""


def stop_on_signals():
    def stop(number, _):
        for it in (signal.SIGINT, signal.SIGTERM, signal.SIGHUP):
            signal.signal(it, signal.SIG_IGN)
        raise Stopped

    for it in (signal.SIGINT, signal.SIGTERM, signal.SIGHUP):
        if signal.getsignal(it) is not signal.SIG_IGN:
            signal.signal(it, stop)


def loaded(folder, name):
    """The kit's bin/NAME as a module, or None where that is no Python."""
    path = f"{folder}/bin/{name}"
    if not os.path.isfile(f"{folder}/bin/rtlib.py"):
        return None
    sys.dont_write_bytecode = True
    named = os.path.splitext(name)[0]
    loader = importlib.machinery.SourceFileLoader(f"kit_{named}", path)
    made = importlib.util.module_from_spec(importlib.util.spec_from_loader(loader.name, loader))
    sys.modules[loader.name] = made
    loader.exec_module(made)
    return made


def once(crate_type):
    """Has a crate's libraries worked out once, and its sum once for each sum that is asked for. The kit goes each path of crates.txt
    for these. The sums are the same, and an edit during a build still shows, since each sum reads the files anew."""
    stamp, below, held = crate_type.stamp, crate_type.below, threading.local()

    def stamp_once(self, *given, **named):
        known = getattr(held, "known", None)
        if known is not None and self.folder in known:
            return known[self.folder]
        is_first = known is None
        if is_first:
            known = held.known = {}
        try:
            known[self.folder] = value = stamp(self, *given, **named)
            return value
        finally:
            if is_first:
                held.known = None

    def below_once(self):
        if "below_found" not in self.__dict__:
            self.below_found = below(self)
        return [*self.below_found]

    crate_type.stamp, crate_type.below = stamp_once, below_once


@contextlib.contextmanager
def running(words, **how):
    """A command with a process group of its own, which is ended with what it started however this ends."""
    tool = subprocess.Popen(words, start_new_session=True, stdin=subprocess.DEVNULL, **how)
    try:
        yield tool
    finally:
        with contextlib.suppress(ProcessLookupError):
            os.killpg(tool.pid, signal.SIGTERM)
        with contextlib.suppress(subprocess.TimeoutExpired):
            tool.wait(timeout=5)
        with contextlib.suppress(ProcessLookupError):
            os.killpg(tool.pid, signal.SIGKILL)
        tool.wait()


@contextlib.contextmanager
def alone(path, progress):
    """One build of its kind in a checkout at a time: a second waits."""
    os.makedirs(os.path.dirname(path), exist_ok=True)
    with open(path, "w", encoding="utf-8") as it:
        while True:
            try:
                fcntl.flock(it, fcntl.LOCK_EX | fcntl.LOCK_NB)
                break
            except BlockingIOError:
                progress.show("taverna: waiting for another build of this checkout")
                time.sleep(0.5)
            except OSError:
                break  # (a file system without locks)
        yield


def tail(path, lines=20):
    with open(path, encoding="utf-8", errors="replace") as it:
        return "".join(it.readlines()[-lines:]).rstrip("\n")

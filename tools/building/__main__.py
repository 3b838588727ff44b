"""What ./taverna and ./prove ask for: each says in its own head what it does. The other words are for the gate and for this program itself."""
import json
import os
import signal
import sys

import kit
import proving
import sources
import unproved
from progress import Progress

NO_KIT = "and that needs the kit's command rt, which isn't on the path"
USAGE = """usage: ./prove [--jobs N]

Proves the program and builds it. From then on ./taverna runs that one, until a source or the kit changes. What is proved is kept, so that
an interrupted ./prove goes on from there. It proves as many crates side by side as processors and memory allow, or N.

    ./prove --begin    notes the sources, before `rt ci`
    ./prove --take     after `rt ci` passed: keeps the program that it proved, where no source changed since
"""


def failed(progress, why):
    progress.say(f"taverna: {why}")
    return 1


def start(top, not_proved, waits, *words):
    """Builds the unproved program where none is fresh, and runs what is."""
    progress, folder = Progress(), sources.kit()
    kind = sources.look(top)
    if kind is None:
        if folder is None:
            return failed(progress, f"it isn't built from the sources that stand here, {NO_KIT}")
        with kit.alone(f"{top}/out/unproved/lock", progress):
            kind = sources.look(top)
            if kind is None:
                progress.say("taverna: it isn't built from the sources that stand here, so it is built first, without its proofs: in some minutes")
                unproved.built(top, folder, progress)
                progress.say(f"taverna: built in {progress.so_far()}")
                kind = "unproved"
    if folder:
        unproved.look_made(top, folder)
    for it in [not_proved if kind == "unproved" else "", waits]:
        if it:
            progress.say(it)
    # (Python itself ignores these two)
    for it in (signal.SIGPIPE, signal.SIGXFSZ):
        signal.signal(it, signal.SIG_DFL)
    os.execv(f"{top}/out/{kind}/{sources.PROGRAM}", [sources.PROGRAM, *words])


def prove(top, *words):
    if words == ("--begin",):
        return begin(top)
    if words == ("--take",):
        return take(top)
    jobs = words[-1].rpartition("=")[2] if words and words[0].startswith("--jobs") and len(words) == 1 + ("=" not in words[0]) else ""
    if words and not (jobs.isdigit() and int(jobs)):
        sys.stderr.write(USAGE)
        return 0 if words == ("--help",) else 2
    progress, folder = Progress(), sources.kit()
    if folder is None:
        return failed(progress, f"the program is to be proved, {NO_KIT}")
    with kit.alone(f"{top}/out/proved/lock", progress):
        if sources.is_fresh(top, "proved", folder):
            progress.say("taverna: it is proved already")
            return 0
        is_done = proving.proved(top, folder, progress, int(jobs or 0))
    if not is_done:
        progress.say("taverna: a source changed meanwhile, so it goes on with what that touches")
        # (a new process, which has nothing in mind of the sources as they were)
        os.execv(sys.executable, [sys.executable, sources.HERE, "prove", *words])
    sources.look(top)
    unproved.look_made(top, folder)
    progress.say(f"taverna: proved and built in {progress.so_far()}")
    return 0


def begin(top):
    """What a run of the gate begins with."""
    folder = sources.kit()
    build = sources.Build(top, "proved", folder) if folder else None
    os.makedirs(f"{top}/out/proved", exist_ok=True)
    sources.write(f"{top}/out/proved/begun", json.dumps(build and build.begun))
    return 0


def take(top):
    """Keeps the program that the gate proved."""
    progress, folder = Progress(), sources.kit()
    with open(f"{top}/out/proved/begun", encoding="utf-8") as it:
        begun = json.load(it)
    sources.drop(f"{top}/out/proved/begun")
    made = f"{top}/crates/{sources.PROGRAM}/out/{sources.PROGRAM}"
    if not begun or not folder or not os.access(made, os.X_OK):
        return failed(progress, "there is no program that the gate proved")
    build = sources.Build(top, "proved", folder)
    build.begun = {it: tuple(numbers) for it, numbers in begun[0].items()}, begun[1], begun[2]
    if not build.keep(made):
        return failed(progress, "a source changed since the gate began, so ./taverna doesn't run the program that it proved")
    sources.look(top)
    unproved.look_made(top, folder)
    return 0


def commands(top, *words):
    """The kit's rt, with sums worked out once."""
    made, why = proving.commands(sources.kit())
    return made.main(list(words)) if made else failed(Progress(), why)


VERBS = {"start": start, "prove": prove, "rt": commands}


def main(verb, *words):
    if verb == "rt":
        return commands(sources.TOP, *words)
    kit.stop_on_signals()
    begun = Progress()
    try:
        return VERBS[verb](sources.TOP, *words)
    except kit.Stopped:
        kept = "What is proved is kept, and ./prove goes on from there" if verb == "prove" else "The same command begins anew"
        return failed(begun, f"stopped after {begun.so_far()}. {kept}")
    except (unproved.Failed, SystemExit) as why:
        return failed(begun, f"the build failed. It ended so:\n{why}" if isinstance(why, unproved.Failed) else "the build failed")
    except OSError as why:
        return failed(begun, f"the build failed: {why}")


if __name__ == "__main__":
    STATUS = main(*sys.argv[1:])
    sys.stdout.flush()
    # (a thread may wait for a tool, which ends with this process)
    os._exit(STATUS)

"""The picture of a flow with what its steps did, drawn by tools/draw."""
import colorsys
import importlib.machinery
import importlib.util
import re
import subprocess
import sys

from .counts import Count
from .program import TOP, compact
from .values import is_error, many

FAILED, BOUNCED = "#fbdcdc", "#fdf1d6"
RED, AMBER, BLUE = "#c00000", "#b45309", "#1d4ed8"
SECONDS = 60  # that dot is given


class NoPicture(Exception):
    """There is no picture, for this reason."""


def draw():
    """tools/draw as a module."""
    sys.dont_write_bytecode = True
    loader = importlib.machinery.SourceFileLoader("draw", f"{TOP}/tools/draw")
    module = importlib.util.module_from_spec(importlib.util.spec_from_loader("draw", loader))
    loader.exec_module(module)
    return module


def sums_by_flow(run):
    """The counts of each step of each flow, over all ways to it: a flow is drawn once."""
    found = {}
    for count in run.steps.values():
        found.setdefault((count.flow, count.step), Count(count.flow, count.step)).add(count)
    return found


def dot_text(run):
    module, sums = draw(), sums_by_flow(run)

    class WithCounts(module.Picture):
        def step_notes(self, flow, name):
            count = sums.get((flow, name))
            if not count:
                return []
            least = "at least " * ("jobs" in count.least)
            said = [module.small(least + many(count.jobs, "job"), BLUE)]
            if count.attempts > count.asked:
                said.append(module.small(f"{count.attempts} attempts", AMBER))
            for name, colour in (("failed", RED), ("bounced", AMBER)):
                if getattr(count, name):
                    said.append(module.small("at least " * (name in count.least) + f"{getattr(count, name)} {name}", colour))
            return [module.small(" · ").join(said)]

        def step_colour(self, flow, name):
            count = sums.get((flow, name))
            return FAILED if count and count.failed else BOUNCED if count and count.bounced else module.WHITE

        def output_notes(self, flow, port):
            return [module.small(module.cut(shown(run.outputs[port])))] if flow == run.main else []

    return WithCounts(run.document, run.depths, "", None).whole()


def shown(value):
    """A value as JSON text, with a cross in the place of each error."""
    if isinstance(value, list):
        return "[" + ",".join(map(shown, value)) + "]"
    return "✗" if is_error(value) else compact(value)


def svg(run):
    """The picture as an element of a page. NoPicture tells why there is none."""
    try:
        ran = subprocess.run(["dot", "-Tsvg"], input=dot_text(run).encode(), capture_output=True, timeout=SECONDS)
    except FileNotFoundError:
        raise NoPicture("The picture needs Graphviz's command dot: apt-get install graphviz") from None
    except subprocess.TimeoutExpired:
        raise NoPicture(f"The flow is too large: its picture wasn't done in {SECONDS} seconds") from None
    text = ran.stdout.decode("utf-8", "replace")
    if ran.returncode or "<svg" not in text:
        raise NoPicture("Graphviz's command dot failed")
    text = re.sub(r"<!--.*?-->|<title>.*?</title>", "", text[text.index("<svg") :], flags=re.S)
    return text.replace("<svg ", '<svg role="img" aria-label="the flow, with what each step did" ', 1)


def dark_rules(text):
    """Rules of CSS that turn the colours of a picture to those on a dark page: as light as they were dark."""
    rules = ["svg text:not([fill]){fill:#e5e7eb}"]
    for name, colour in sorted(set(re.findall(r'(fill|stroke)="(#[0-9a-f]{6}|black|white)"', text))):
        rules.append(f'svg [{name}="{colour}"]{{{name}:{turned(colour)}}}')
    return "".join(rules)


def turned(colour):
    """A colour of the same hue and the other lightness: a ground becomes dark, and an ink pale."""
    colour = {"black": "#000000", "white": "#ffffff"}.get(colour, colour)
    parts = [int(colour[at : at + 2], 16) / 255 for at in (1, 3, 5)]
    hue, light, full = colorsys.rgb_to_hls(*parts)
    if light < 0.6:
        light, full = 0.92 - 0.4 * light, full * 0.9
    else:
        light, full = 0.92 - 0.82 * light, full * (0.45 if max(parts) - min(parts) > 0.03 else 0)
    return "#" + "".join(f"{round(part * 255):02x}" for part in colorsys.hls_to_rgb(hue, light, full))

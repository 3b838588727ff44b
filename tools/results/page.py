"""A report as one page, without links to other files. It follows the reader's choice of light or dark, and prints light."""
import sys
from html import escape

from .picture import NoPicture, dark_rules, svg
from .text import COLUMNS, given_lines, headline, lost_text, untold_line, value_text
from .values import cut, is_error, many, place_text, plain, rows

TEXT, ITEMS, CELLS = 2000, 60, 12  # characters of a text, and items of a row, that are shown; items that have a cell each

LIGHT = (
    "--page:#fff;--ink:#1f2937;--quiet:#6b7280;--line:#d5d9e0;--head:#f4f5f7;"
    "--failed:#fbdcdc;--failed-ink:#8f0000;--bounced:#fdf1d6;--bounced-ink:#7a3d00"
)
DARK = (
    "--page:#15181d;--ink:#e5e7eb;--quiet:#9ca3af;--line:#3a404a;--head:#20252d;"
    "--failed:#4a1b1f;--failed-ink:#ffb4b4;--bounced:#453312;--bounced-ink:#ffd58a"
)
STYLE = """
body{font:14px/1.45 Helvetica,Arial,sans-serif;margin:2em auto;padding:0 1.5em;max-width:1100px}
body{background:var(--page);color:var(--ink)}
h1{font-size:20px;overflow-wrap:anywhere}h2{font-size:16px;margin-top:2em}h3{font-size:14px;margin:1.2em 0 .3em}
h1 small,h3 small,.quiet{color:var(--quiet);font-weight:normal;font-size:13px}
.wide{overflow-x:auto}table{border-collapse:collapse;margin:.3em 0}
td,th{border:1px solid var(--line);padding:2px 8px;text-align:left;vertical-align:top;white-space:pre-wrap;overflow-wrap:anywhere}
td{min-width:3ch}span.item{display:inline-block;border:1px solid var(--line);border-radius:4px;padding:0 6px;margin:1px 4px 1px 0}
th{background:var(--head);font-weight:600;overflow-wrap:normal}.number{text-align:right}th.place{font-weight:normal;color:var(--quiet)}
.failed{background:var(--failed);color:var(--failed-ink)}
.bounced{background:var(--bounced);color:var(--bounced-ink)}
.tile{display:inline-block;border:1px solid var(--line);border-radius:8px;padding:6px 16px;margin:0 10px 8px 0}
.tile b{display:block;font-size:20px}svg{max-width:100%;height:auto}
@media print{@page{margin:14mm}body{margin:0;padding:0;max-width:none;print-color-adjust:exact;-webkit-print-color-adjust:exact}
.wide{overflow:visible}tr,.tile,svg{break-inside:avoid}h2,h3{break-after:avoid}svg{max-height:190mm}}
"""


def style(picture):
    dark = f":root{{{DARK}}}{dark_rules(picture)}"
    return f"<style>:root{{color-scheme:light dark;{LIGHT}}}{STYLE}@media screen and (prefers-color-scheme:dark){{{dark}}}</style>"


def tiles(run):
    for name in ("jobs", "attempts", "failed", "bounced"):
        kind = f" {name}" if name in ("failed", "bounced") and run.totals[name] else ""
        yield f'<span class="tile{kind}"><b>{run.totals[name]}</b>{name}</span>'


def flow(picture, why):
    yield "<h2>The flow</h2>"
    if why:
        yield f'<p class="quiet">{escape(why)}.</p>'
    else:
        yield f'<div class="wide">{picture}</div>'
        yield '<p class="quiet"><span class="failed">&ensp;red&ensp;</span> a job failed here '
        yield '<span class="bounced">&ensp;amber&ensp;</span> a job bounced here, ✗ an error in an output. '
        yield "A flow that several steps open is drawn once, with the sums of what it did.</p>"


def steps(run):
    yield '<h2>Steps</h2><div class="wide"><table><thead><tr><th>step</th><th>does</th>'
    yield "".join(f'<th class="number">{name}</th>' for name in COLUMNS) + "</tr></thead><tbody>"
    for way in run.ways():
        yield f"<tr><td>{'&emsp;' * (len(way) - 1)}{escape(way[-1])}</td><td>{escape(run.does(way))}</td>"
        for name in COLUMNS:
            number, least = getattr(run.steps[way], name), "at least " * (name in run.steps[way].least)
            kind = f" {name}" if number and name in ("failed", "bounced") else ""
            yield f'<td class="number{kind}">{least}{number}</td>'
        yield "</tr>"
    yield "</tbody><tfoot><tr><th>total</th><th></th>"
    yield "".join(f'<th class="number">{run.total(name)}</th>' for name in COLUMNS)
    yield "</tr></tfoot></table></div>"
    if run.untold:
        yield f'<p class="quiet">{escape(untold_line(run))}</p>'
    if run.is_cut:
        yield '<p class="quiet">Steps of flows that were opened by no job are left out, since there are too many.</p>'
    yield '<p class="quiet">asked: jobs that asked a service. attempts: all that services were asked. '
    yield "retried: jobs that asked more than once.</p>"


def failed(failures, most):
    if failures.run.totals["failed"]:
        yield '<h2>What failed</h2><div class="wide"><table><thead><tr><th>job</th><th>why</th><th>lost by it</th>'
        yield "<th>made from</th></tr></thead><tbody>"
        for it in list(failures)[:most]:
            given = "\n".join(given_lines(failures, it, 6))
            yield f'<tr><td>{escape(it.job)}</td><td class="failed">{escape(plain(it.why or "it is not told why"))}</td>'
            yield f"<td>{escape(lost_text(it))}</td><td>{escape(given)}</td></tr>"
        yield "</tbody></table></div>"
        untold = failures.run.untold.get("failed", 0)
        if len(failures) > most:
            yield f'<p class="quiet">and {len(failures) - most} more</p>'
        if untold > 0:
            yield f'<p class="quiet">and some of {many(untold, "failed job")} that no step is known to have</p>'


def item(failures, value, tag):
    """An item of an output: a cell of a table, or a span."""
    if is_error(value):
        error = value["error"]
        kind, told = "bounced" if error["from"] else "failed", escape(cut(plain(failures.told(error)), TEXT))
        return f'<{tag} class="item {kind}" title="{escape(error["at"])}">✗ {told}</{tag}>'
    quiet, text = ("", cut(plain(value, "\n\t"), TEXT)) if value else (" quiet", "empty text")
    return f'<{tag} class="item{quiet}">{escape(text)}</{tag}>'


def row(failures, items, is_long):
    """The cells of a row; one alone, with all items, where the rows of a table are long."""
    if not items:
        return '<td class="quiet">an empty list</td>'
    cells = "".join(item(failures, it, "span" if is_long else "td") for it in items[:ITEMS])
    more = f'<span class="quiet">and {len(items) - ITEMS} more</span>' if len(items) > ITEMS else ""
    return f"<td>{cells}{more}</td>" if is_long else cells


def output(failures, port, value, most):
    depth = failures.run.depths["flow", failures.run.main, port][0]
    yield f'<h3>{escape(port)} <small>depth {depth}</small></h3><div class="wide"><table>'
    found = rows(value)
    is_long = any(len(items) > CELLS for _, items in found[:most])
    for place, items in found[:most]:
        yield f'<tr><th class="place">{place_text(place)}</th>{row(failures, items, is_long)}</tr>'
    yield "</table></div>"
    if len(found) > most:
        yield f'<p class="quiet">and {len(found) - most} more rows; tools/table writes all of them</p>'


def given(run):
    if run.document.get("inputs"):
        yield '<h2>Inputs</h2><div class="wide"><table>'
        for name, value in sorted(run.document["inputs"].items()):
            yield f"<tr><th>{escape(name)}</th><td>{escape(value_text(value, 400))}</td></tr>"
        yield "</table></div>"


def as_page(run, failures, most):
    picture, why = "", ""
    try:
        picture = svg(run)
    except NoPicture as no_picture:
        why = str(no_picture)
        print(f"tools/report: {why}", file=sys.stderr)
    parts = ['<!doctype html><html lang="en"><head><meta charset="utf-8">']
    parts += [f"<title>{escape(run.main)}: {escape(headline(run))}</title>", style(picture), "</head><body>"]
    parts += [f"<h1>{escape(run.main)} <small>a run of taverna</small></h1><p>", *tiles(run), "</p>"]
    parts += [*flow(picture, why), *steps(run), *failed(failures, most), "<h2>Outputs</h2>"]
    for port, value in sorted(run.outputs.items()):
        parts += output(failures, port, value, most)
    return "".join([*parts, *given(run), "</body></html>\n"])

"""A report as text."""
from .program import compact
from .values import cut, is_error, many, place_text, plain, rows

COLUMNS = ("jobs", "asked", "failed", "bounced", "attempts", "retried")
WIDE, ITEMS = 60, 12  # characters of a value, and items of a row, that are shown


def figure(count, name):
    return f"{getattr(count, name)}" + ("+" if name in count.least else "")


def numbers_text(numbers):
    """Totals in words: 2 jobs, 1 attempt, 1 failed."""
    return ", ".join(many(it, name[:-1]) if name in ("jobs", "attempts") else f"{it} {name}" for name, it in numbers.items())


def headline(run):
    return numbers_text({name: run.totals[name] for name in ("jobs", "attempts", "failed", "bounced")})


def untold_line(run):
    """What the sums of the steps lack of the totals, in words; nothing where they agree."""
    if not run.untold:
        return ""
    if run.differing:
        return f"The sums of the steps differ from the totals by {numbers_text(run.untold)}: a fault of the report or the program."
    return f"Not told by step: {numbers_text(run.untold)}."


def value_text(value, most=WIDE):
    """A given value, or a text of an output, on one line."""
    return cut(plain(value if isinstance(value, str) else compact(value)) or '""', most)


def given_lines(failures, failure, most):
    """The elements that a failed job was made from, each with its value."""
    if failure.given is None:
        return ["not asked for"]
    said = [f"{it} = {value_text(failures.value_of(it))}" for it in failure.given[:most]]
    if len(failure.given) > most:
        said.append(f"and {len(failure.given) - most} more")
    return said or ["nothing given: made from constants alone"]


def lost_text(failure, most=12):
    """What was lost by a failed job, in words."""
    said = " ".join(port + place_text(place) for port, place in failure.lost[:most]) or "nothing in the outputs"
    if len(failure.lost) > most:
        said += f" and {len(failure.lost) - most} more"
    return said + (f"; {many(failure.bounced, 'job')} bounced" if failure.bounced else "")


def table_lines(table, texts):
    """Lines of a table, whose first columns are texts and whose others are numbers."""
    widths = [max(map(len, column)) for column in zip(*table)]
    for row in table:
        cells = [cell.ljust(width) if at < texts else cell.rjust(width) for at, (cell, width) in enumerate(zip(row, widths))]
        yield "  ".join(cells).rstrip()


def step_lines(run):
    table = [("step", "does", *COLUMNS)]
    for way in run.ways():
        figures = [figure(run.steps[way], name) for name in COLUMNS]
        table.append(("  " * (len(way) - 1) + way[-1], run.does(way), *("." if it == "0" else it for it in figures)))
    table.append(("total", "", *(str(run.total(name)) for name in COLUMNS)))
    yield from table_lines(table, 2)
    if any(count.least for count in run.steps.values()):
        yield "+  at least so many"
    if run.is_cut:
        yield "Steps of flows that were opened by no job are left out where there are too many."
    if run.untold:
        yield untold_line(run)


def failure_lines(failures, most):
    for failure in list(failures)[:most]:
        yield f"  {failure.job}: {plain(failure.why or 'it is not told why')}"
        yield f"    lost: {lost_text(failure)}"
        for at, line in enumerate(given_lines(failures, failure, 6)):
            yield ("    from: " if at == 0 else "          ") + line
    if len(failures) > most:
        yield f"  and {len(failures) - most} more"
    untold = failures.run.untold.get("failed", 0)
    if untold > 0:
        yield f"  and some of {many(untold, 'failed job')} that no step is known to have"


def item_text(failures, value):
    if is_error(value):
        return f"✗ {plain(failures.told(value['error']))}"
    return value_text(value)


def output_lines(failures, port, value, most):
    yield f"  {port}, depth {failures.run.depths['flow', failures.run.main, port][0]}"
    table = []
    found = rows(value)
    for place, items in found[:most]:
        said = [item_text(failures, it) for it in items[:ITEMS]] + ["…"] * (len(items) > ITEMS)
        table.append((f"    {place_text(place)}", " | ".join(said) or "an empty list"))
    yield from table_lines(table, 2)
    if len(found) > most:
        yield f"    and {len(found) - most} more rows"


def as_text(run, failures, most):
    lines = [f"{run.main}: {headline(run)}", "", *step_lines(run)]
    if run.totals["failed"]:
        lines += ["", "failed", *failure_lines(failures, most)]
    lines += ["", "outputs" if run.outputs else "no outputs"]
    for port, value in sorted(run.outputs.items()):
        lines += output_lines(failures, port, value, most)
    return "\n".join(lines) + "\n"

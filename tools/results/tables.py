"""Tables: columns of TSV and CSV files, and values as tables."""
import csv
import io
import os
import re

from .program import stop
from .values import is_error, least_depth, parts, place_text, rows

csv.field_size_limit(1 << 24)


class Table:
    """A file of rows of cells, of which the first has the names of the columns. It is comma-separated where its name ends with
    .csv, and else tab-separated; Python's csv reads it. A row that has another number of cells ends the program."""

    def __init__(self, path):
        self.path = path
        try:
            with open(path, newline="", encoding="utf-8-sig") as file:
                reader = csv.reader(file, delimiter="," if path.lower().endswith(".csv") else "\t", strict=True)
                lines = [(reader.line_num, cells) for cells in reader]
        except OSError as error:
            stop(f"{path}: {error.strerror}", 3)
        except UnicodeDecodeError as error:
            stop(f"{path}: not UTF-8 ({error.reason} at byte {error.start})", 3)
        except csv.Error as error:
            hint = "; a cell that begins with a quote ends with one, and has each quote between twice"
            hint = hint if str(error).startswith("unexpected end") or '"' in str(error) else ""
            stop(f"{path}: {error}, at line {reader.line_num}{hint}", 3)
        while lines and not lines[-1][1]:
            lines.pop()
        if not lines:
            stop(f"{path}: it is empty, and the first line must name the columns", 3)
        self.names, self.rows = lines[0][1], [cells for _, cells in lines[1:]]
        for line, cells in lines[1:]:
            if len(cells) != len(self.names):
                stop(f"{path}:{line}: {len(cells)} cells, where the line of names has {len(self.names)}", 3)

    def column(self, name):
        """The position of a column: of that name, or of that number, counted from 1."""
        if self.names.count(name) > 1:
            stop(f"{self.path}: {name!r} names {self.names.count(name)} columns; take its number, counted from 1", 2)
        if name in self.names:
            return self.names.index(name)
        if re.fullmatch("[1-9][0-9]{0,5}", name) and int(name) <= len(self.names):
            return int(name) - 1
        hint = ""
        if len(self.names) == 1 and re.search("[,;\t]", self.names[0]):
            hint = " (a comma-separated file has a name that ends with .csv, all others are separated by tabs)"
        return stop(f"{self.path}: no column {name!r}; it has {', '.join(self.names)}{hint}", 2)

    def value(self, said):
        """COLUMN as a list, COLUMN/GROUP as a list of lists, one for all rows with one entry in the column GROUP, in the order of
        the first of each, COLUMN/OUTER/INNER one deeper, and so on."""
        name, *groups = [said] if said in self.names else said.split("/")
        return nested(self.rows, self.column(name), [self.column(it) for it in groups])

    def once(self, name):
        """The entries of a column, each once, in the order of the first of each."""
        at = self.column(name)
        return list(dict.fromkeys(cells[at] for cells in self.rows))


def nested(cells, column, groups):
    if not groups:
        return [it[column] for it in cells]
    found = {}
    for it in cells:
        found.setdefault(it[groups[0]], []).append(it)
    return [nested(some, column, groups[1:]) for some in found.values()]


def table_and_column(said):
    """TABLE:COLUMN as the table and COLUMN. Where there are several colons, TABLE is the first name of a file."""
    colons = [it.start() for it in re.finditer(":", said)]
    if not colons:
        stop(f"{said!r} is no TABLE:COLUMN", 2)
    at = next((it for it in colons if os.path.isfile(said[:it])), colons[-1])
    return Table(said[:at]), said[at + 1 :]


# Values as tables


def error_text(value):
    if not is_error(value):
        return ""
    error = value["error"]
    return f"{error['at']}: {error['why']}" + (f" by {' '.join(error['from'])}" if error["from"] else "")


def cell_text(value):
    return value if isinstance(value, str) else ""


def fits_columns(values):
    """Whether outputs can stand beside each other, a row for each place: lists of texts of one length, or texts alone."""
    depths = {least_depth(it) for it in values}
    return depths == {0} or (depths == {1} and all(isinstance(it, list) for it in values) and len({len(it) for it in values}) == 1)


def columns(outputs):
    """A row for each place, with a column for each output, and one for the errors."""
    found = [["place", *outputs, "error"]]
    values = [it if isinstance(it, list) else [it] for it in outputs.values()]
    for place, items in enumerate(zip(*values)):
        at = str(place) if isinstance(next(iter(outputs.values())), list) else ""
        found.append([at, *map(cell_text, items), "; ".join(filter(None, map(error_text, items)))])
    return found


def wide(outputs):
    """A row for each innermost list, with its items in columns that are numbered from 0."""
    made = [(port, place, items) for port, value in outputs.items() for place, items in as_lists(value)]
    width = max((len(items) for _, _, items in made), default=0)
    found = [["output", "place", "items", *map(str, range(width)), "error"]]
    for port, place, items in made:
        errors = "; ".join(f"{at}: {error_text(it)}" for at, it in enumerate(items) if is_error(it))
        cells = [*map(cell_text, items)] + [""] * (width - len(items))
        found.append([port, place_text(place)[1:-1], str(len(items)), *cells, errors])
    return found


def as_lists(value):
    """The rows of a value, but a plain list as one row."""
    is_plain = isinstance(value, list) and not any(isinstance(it, list) for it in value)
    return [((), value)] if is_plain else rows(value)


def long(outputs):
    """A row for each text, error and empty list, one output under the other."""
    found = [["output", "place", "kind", "value", "error"]]
    for port, value in outputs.items():
        for place, it in parts(value):
            kind = "error" if is_error(it) else "text" if isinstance(it, str) else "empty list"
            found.append([port, place_text(place)[1:-1], kind, cell_text(it), error_text(it)])
    return found


LAYOUTS = {"columns": columns, "wide": wide, "long": long}


def written(table, form):
    """A table as the text of a form: tsv, csv or md."""
    if form != "md":
        return "".join(line(row, "," if form == "csv" else "\t") for row in table)
    if not any(row[-1] for row in table[1:]):
        table = [row[:-1] for row in table]
    marked = [[marked_down(cell) for cell in row] for row in table]
    return "".join(f"| {' | '.join(row)} |\n" for row in [marked[0], ["---"] * len(marked[0]), *marked[1:]])


def line(row, delimiter):
    # (lines of this ending have every line feed and carriage return within a cell in quotes; a line feed alone ends them here)
    text = io.StringIO()
    csv.writer(text, delimiter=delimiter, lineterminator="\r\n").writerow(row)
    return text.getvalue()[:-2] + "\n"


def marked_down(text):
    text = re.sub(r"([\\`*_\[\]<>|~&])", r"\\\1", text)
    return re.sub(r"\r\n|\r|\n", "<br>", text)

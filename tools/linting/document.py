"""All that lint finds in one document."""
from linting.cautions import Cautions, keys_that_stand_twice
from linting.checks import Checks
from linting.findings import CHECK, FORM, NOT_JSON, READ_FAULT, TOO_LONG, WARNING, Finding, printable
from linting.form import Form
from linting.program import CannotAsk, asked, place_of
from linting.reading import Text
from linting.texts import other_format, text_of
from linting.words import Nearest

MOST_BYTES = 1 << 24
NO_PROGRAM = 1


class Linted:
    """What is wrong of a document's bytes: `found`, in the order in which it is told, and the `status`.

    The program is asked where one is given; `doubt` says why it couldn't be. `due` is the line that it prints, as lint has it.
    """

    def __init__(self, given, program=None):
        self.text, self.found, self.doubt = None, [], ""
        if len(given) > MOST_BYTES:
            what, mend = f"the document has more than {MOST_BYTES} bytes", "that is the most that is read: give it less data"
            said = f"taverna: input longer than {MOST_BYTES} bytes"
            self.found.append(Finding(TOO_LONG, what, mend, offset=0, said=said))
        else:
            self.look(given)
        self.status = next((it for it in (TOO_LONG, NOT_JSON, FORM, CHECK) if any(found.status == it for found in self.found)), 0)
        self.due = next((it.said for it in self.found if self.status and it.status == self.status), "")
        self.hear(given, program)
        self.put_in_order()

    def look(self, given):
        """What lint finds by itself."""
        text, found = text_of(given)
        self.found += found
        if text is None:
            return
        self.text = Text(text)
        other = other_format(text) if self.text.found or not self.text.is_read else None
        if other:
            start = len(text) - len(text.lstrip()) if text.strip() else 0
            self.found.append(Finding(NOT_JSON, *other, offset=start))
            return
        self.take(self.text.found)
        if self.text.is_read:
            self.look_into(self.text.document)

    def take(self, findings):
        """Takes findings over, and tells how many were left out of them."""
        self.found += findings
        if getattr(findings, "left_out", 0):
            last = findings[-1]
            what = f"{findings.left_out} more findings are left out" if last.status != NOT_JSON else "what stands behind is left out"
            more = Finding(last.status, what, f"mend the {len(findings)} before first", last.path, last.is_key, last.offset)
            self.found.append(more)

    def look_into(self, document):
        nearest = Nearest()
        if isinstance(document, (dict, list)):
            self.take(keys_that_stand_twice(document, self.text))
        form = Form(nearest)
        form.document(document)
        self.take(form.found)
        if form.found or self.text.is_guessed:
            return
        checks = Checks(document, nearest)
        checks.all()
        cautions = Cautions(checks)
        cautions.all(not checks.found)
        self.take(checks.found)
        self.take(cautions.found)

    def hear(self, given, program):
        """Hears the program, whose word is the last one."""
        self.line, own = "", self.status
        if program is None:
            return
        try:
            self.status, self.line = asked(program, given)
        except CannotAsk as cause:
            self.doubt = str(cause)
            self.status = own or NO_PROGRAM
            return
        errors = [it for it in self.found if it.status]
        if self.status == 0 and errors:
            for it in errors:
                it.status, it.what = WARNING, f"{it.what} (lint says so, and the program accepts it)"
            return
        if self.status == NOT_JSON and own == NOT_JSON or not self.status:
            return
        if not any(it.said == self.line for it in errors):
            path, is_key = place_of(self.line)
            what = f"the program refuses this: {printable(self.line)}"
            mend = "lint didn't find that by itself, and the program has the last word"
            if own not in (0, self.status):
                mend += f" (by itself lint would have ended with {own})"
            it = Finding(self.status, what, mend, path, is_key, said=self.line)
            if self.text is None or not self.text.is_read:
                it.offset = 0
            self.found.insert(0, it)

    def put_in_order(self):
        """The program's own fault first and then what isn't JSON, then all others by line and column."""
        if self.text is not None:
            self.text.place(self.found)
        first = next((it for it in self.found if it.said and it.said == self.line), None)
        self.found.sort(key=lambda it: (it is not first, it.status != NOT_JSON, it.line, it.column, it.status == WARNING))


def unreadable(error):
    """What is told of a file that can't be read."""
    return Finding(READ_FAULT, f"it can't be read: {error.strerror or error}", "", offset=0)

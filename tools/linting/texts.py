"""The text of a file's bytes, and what a file is that has none."""
import re

from linting.findings import NOT_JSON, Finding

BEGINNINGS = (
    (b"\x1f\x8b", "a gzip file", "unpack it: gunzip -c FILE"),
    (b"BZh", "a bzip2 file", "unpack it: bunzip2 -c FILE"),
    (b"\xfd7zXZ", "an xz file", "unpack it: xz -dc FILE"),
    (b"\x28\xb5\x2f\xfd", "a zstd file", "unpack it: zstd -dc FILE"),
    (b"PK\x03\x04", "a zip file (so are .xlsx, .docx and .wfbundle)", "a document is one JSON text"),
    (b"\x89PNG", "a picture (PNG)", "a document is one JSON text"),
    (b"\xff\xd8\xff", "a picture (JPEG)", "a document is one JSON text"),
    (b"GIF8", "a picture (GIF)", "a document is one JSON text"),
    (b"II*\x00", "a picture (TIFF)", "a document is one JSON text"),
    (b"MM\x00*", "a picture (TIFF)", "a document is one JSON text"),
    (b"%PDF", "a PDF", "a document is one JSON text"),
    (b"\x7fELF", "a program", "a document is one JSON text"),
    (b"\xd0\xcf\x11\xe0", "a file of an office program", "a document is one JSON text"),
)
WIDE = (
    (b"\xff\xfe\x00\x00", "UTF-32"),
    (b"\x00\x00\xfe\xff", "UTF-32"),
    (b"\xff\xfe", "UTF-16"),
    (b"\xfe\xff", "UTF-16"),
)
MARK = b"\xef\xbb\xbf"


def text_of(given):
    """The text of the bytes, as far as they are one (else None), and the findings that this made."""
    for beginning, what, mend in BEGINNINGS:
        if given.startswith(beginning):
            return None, [Finding(NOT_JSON, f"this is {what}, and no JSON", mend, offset=0)]
    wide = next((name for beginning, name in WIDE if given.startswith(beginning)), None) or wide_without_mark(given)
    if wide:
        return None, [Finding(NOT_JSON, f"the text is {wide}", f"save it as UTF-8: iconv -f {wide} -t UTF-8", offset=0)]
    found = []
    if given.startswith(MARK):
        mend = "save it as UTF-8 without BOM: sed '1s/^\\xEF\\xBB\\xBF//'"
        found.append(Finding(NOT_JSON, "the text begins with a byte order mark (BOM)", mend, offset=0))
        given = given[len(MARK) :]
    try:
        return given.decode("utf-8"), found
    except UnicodeDecodeError as error:
        bad, first = given[error.start], error.start
    # (each such byte is read as the character that it is in Latin-1)
    text, wrong = re.subn("[\udc80-\udcff]", lambda it: chr(ord(it[0]) - 0xDC00), given.decode("utf-8", "surrogateescape"))
    if b"\x00" in given[:4096] or wrong > len(text) // 4:
        return None, [Finding(NOT_JSON, "these are no text but other bytes", "a document is one JSON text in UTF-8", offset=0)]
    place = len(given[:first].decode("utf-8"))
    what = f"the byte 0x{bad:02X} is no UTF-8"
    if bad >= 0xA0:
        what += f" (in Latin-1 it is {bytes([bad]).decode('latin-1')!r})"
    if wrong > 1:
        what += f", and {wrong - 1} more are none"
    found.append(Finding(NOT_JSON, what, "is the text Latin-1? Save it as UTF-8: iconv -f LATIN1 -t UTF-8", offset=place))
    return text, found


def wide_without_mark(given):
    """UTF-16 whose first characters are ASCII, told by its zero bytes."""
    head = given[:64]
    halves = head[::2], head[1::2]
    for name, zeros, letters in (("UTF-16LE", halves[1], halves[0]), ("UTF-16BE", halves[0], halves[1])):
        if len(zeros) > 1 and not any(zeros) and all(letters):
            return name
    return None


# What begins otherwise than JSON does: a pattern of the beginning, what the file is, and how to mend that.

DOCUMENT = "a document is one JSON object, as in examples/gene_names.json"
TABLE = 'a table\'s columns are lists of a document\'s "inputs", as {"inputs": {"genes": ["BRCA1", "TP53"]}}'
OTHERS = (
    (r"<\?xml|<[A-Za-z!]", "XML", "write the flow anew as a JSON document; .t2flow and .scufl2 aren't read"),
    (r"#!.*nextflow|(process|workflow)\s+\w*\s*\{", "a Nextflow script", DOCUMENT),
    (r"#!", "a script", DOCUMENT),
    (r"version\s+1\.\d\s|(task|import)\s+\S+\s*\{", "WDL", DOCUMENT),
    (r"##fileformat=VCF", "a VCF file", TABLE),
    (r"(rule|checkpoint|configfile|rule all)\b.*:", "a Snakefile", DOCUMENT),
    (r">\S", "a FASTA file", TABLE),
    (r"@\S+.*\n[ACGTNacgtn]+\r?\n\+", "a FASTQ file", TABLE),
    (r"\[[A-Za-z_][\w.]*\]\s*(\n|$)", "TOML or an ini file", DOCUMENT),
    (r"(---|%YAML)", "YAML", DOCUMENT),
    (r"[A-Za-z_][\w-]*:(\s|$)", "YAML", DOCUMENT),
    (r"- \S", "YAML", DOCUMENT),
)


def other_format(text):
    """What a text is that doesn't begin as JSON does, and how to mend that; None where nothing is known of it."""
    head = text[:65536].lstrip()
    if not head:
        empty = "there is nothing in it" if not text else "there are only spaces and line ends in it"
        return empty, DOCUMENT
    if head[0] in '{"' or (head[0] == "[" and not re.match(OTHERS[8][0], head)):
        return None
    plain = re.sub(r"\A(#(?![!#]).*\n\s*)+", "", head)
    for pattern, what, mend in OTHERS:
        if re.match(pattern, plain):
            if what == "YAML" and re.search(r"^\s*cwlVersion\s*:", text[:65536], re.M):
                what = "CWL, in YAML"
            return f"this is {what}, and no JSON", mend
    lines = [it for it in head.splitlines()[:3] if it]
    for sign, what in (("\t", "TSV"), (",", "CSV"), (";", "CSV")):
        if sign in lines[0] and (len(lines) == 1 or len({it.count(sign) for it in lines[:2]}) == 1):
            if what == "TSV" or len(lines) > 1:
                return f"this is a table ({what}), and no JSON", TABLE
    return None

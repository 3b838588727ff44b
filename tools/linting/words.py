"""Names that are near to one another, and the words of other systems with the word here."""
import difflib
import re

from linting.findings import listed, quoted

MOST_LOOKED_AT, LIKELY = 100_000, 0.6


class Nearest:
    """Looks for names that are near. After so many names that were looked at it gives up."""

    def __init__(self):
        self.looked_at = 0

    def first(self, word, words):
        """The words, nearest first, and whether the first one is likely meant."""
        self.looked_at += len(words)
        if self.looked_at > MOST_LOOKED_AT:
            return list(words), False
        words = sorted(words)
        close = difflib.get_close_matches(folded(word), {folded(it) for it in words}, 8, LIKELY)
        scores = {it: len(close) - at for at, it in enumerate(close)}
        near = sorted((it for it in words if scores.get(folded(it))), key=lambda it: (-scores[folded(it)], it))
        if not near:
            near = [it for it in words if is_part(it, word) or is_part(word, it)]
        rest = set(near)
        return near + [it for it in words if it not in rest], bool(near)

    def choice(self, word, words, whose):
        """How to mend a name that isn't there, where `whose` says which names could stand."""
        ordered, is_likely = self.first(word, words)
        if not ordered:
            return f"there are no {whose}"
        if not is_likely:
            return f"the {whose}: {listed(ordered)}"
        more = f" The {whose}, nearest first: {listed(ordered)}" if len(ordered) > 1 else ""
        return f"did you mean {quoted(ordered[0])}?{more}"


def is_part(word, other):
    return len(word) > 2 and folded(word) in folded(other)


def folded(word):
    return re.sub(r"[_\-. ]", "", word.lower())


# Words of other systems: whose word it is, the field here (None where there is none like it), and a remark.

CWL, SNAKEMAKE, TAVERNA, WDL = "CWL", "snakemake", "Taverna", "WDL"
ITERATION = "ports iterate by their depths, and a tree says how several go together, as"
NO_FILES = "there are no files here: data are texts and lists of texts"
NO_PROGRAMS = "there are no programs here: a step has one of eighteen text services, or a flow"
FOREIGN = {
    "scatter": (CWL, "strategy", f'{ITERATION} {{"cross": ["a", "b"]}}'),
    "scatterMethod": (CWL, "strategy", f'{ITERATION} {{"dot": ["a", "b"]}}'),
    "linkMerge": (CWL, "merge", 'a list of links, as {"merge": [LINK, LINK]}'),
    "in": (CWL, "inputs", 'by name, as {"x": {"depth": 0, "from": {"input": "x"}}}'),
    "out": (CWL, "outputs", 'each with its depth, as {"o": 0}'),
    "run": (CWL, "activities", 'a list, as [{"service": "upper"}] or [{"flow": "NAME"}]'),
    "source": (CWL, "from", 'as {"step": "clean", "port": "o"} or {"input": "x"}'),
    "outputSource": (CWL, None, 'an output is its link itself, as "o": {"step": "clean", "port": "o"}'),
    "default": (CWL, "constant", 'a value that stands there always, as {"constant": "x"}; there is none for a missing input'),
    "valueFrom": (CWL, "constant", 'a value, as {"constant": "x"}; there are no expressions'),
    "when": (CWL, None, "there are no conditions: a step runs for each element"),
    "type": (CWL, "depth", '0 is a text, 1 a list of texts ("string[]"), 2 a list of lists'),
    "cwlVersion": (CWL, "taverna", "the form's number, 1"),
    "class": (CWL, None, f"take it out; {NO_FILES}"),
    "id": (CWL, None, "flows, steps and ports stand by their names, as keys"),
    "label": (CWL, None, "there is no place for remarks"),
    "doc": (CWL, None, "there is no place for remarks"),
    "requirements": (CWL, None, "nothing has to be required: flows nest and ports iterate by themselves"),
    "hints": (CWL, None, "take it out"),
    "baseCommand": (CWL, "activities", NO_PROGRAMS),
    "arguments": (CWL, None, NO_PROGRAMS),
    "workflow": (CWL, "flow", "an activity that opens a flow"),
    "workflows": (WDL, "flows", "flows by name"),
    "$graph": (CWL, "flows", "flows by name"),
    "threads": (SNAKEMAKE, "jobs", "how many jobs of the step may run at once, 1 to 64"),
    "cores": (SNAKEMAKE, "jobs", "how many jobs of the step may run at once, 1 to 64"),
    "resources": (SNAKEMAKE, None, 'only "jobs" limits how much runs at once'),
    "rule": (SNAKEMAKE, "steps", "steps by name"),
    "rules": (SNAKEMAKE, "steps", "steps by name"),
    "params": (SNAKEMAKE, "inputs", 'a port with a fixed value, as {"depth": 0, "from": {"constant": "x"}}'),
    "shell": (SNAKEMAKE, "activities", NO_PROGRAMS),
    "script": (SNAKEMAKE, "activities", NO_PROGRAMS),
    "expand": (SNAKEMAKE, "strategy", f'{ITERATION} {{"cross": ["a", "b"]}}'),
    "wildcards": (SNAKEMAKE, "strategy", f'{ITERATION} {{"cross": ["a", "b"]}}'),
    "needs": (SNAKEMAKE, "after", 'as ["clean"]'),
    "depends_on": (SNAKEMAKE, "after", 'as ["clean"]'),
    "dependsOn": (SNAKEMAKE, "after", 'as ["clean"]'),
    "command": (WDL, "activities", NO_PROGRAMS),
    "task": (WDL, "steps", "steps by name"),
    "tasks": (WDL, "steps", "steps by name"),
    "call": (WDL, "activities", 'as [{"flow": "NAME"}]'),
    "processor": (TAVERNA, "steps", "steps by name"),
    "processors": (TAVERNA, "steps", "steps by name"),
    "dataflow": (TAVERNA, "flow", "an activity that opens a flow"),
    "dataflows": (TAVERNA, "flows", "flows by name"),
    "datalink": (TAVERNA, "from", "a link stands at the port that it feeds"),
    "datalinks": (TAVERNA, "from", "a link stands at the port that it feeds"),
    "dataLinks": (TAVERNA, "from", "a link stands at the port that it feeds"),
    "links": (TAVERNA, "from", "a link stands at the port that it feeds; several links are {\"merge\": [..]}"),
    "controllinks": (TAVERNA, "after", 'as ["clean"]'),
    "controlLinks": (TAVERNA, "after", 'as ["clean"]'),
    "coordinations": (TAVERNA, "after", 'as ["clean"]'),
    "conditions": (TAVERNA, "after", 'as ["clean"]'),
    "iterationStrategy": (TAVERNA, "strategy", 'a tree, as {"dot": ["a", "b"]}'),
    "iterationStrategyStack": (TAVERNA, "strategy", 'a tree, as {"dot": ["a", "b"]}'),
    "activity": (TAVERNA, "activities", 'a list, as [{"service": "upper"}]'),
    "failover": (TAVERNA, "activities", "a list: the next one is tried where one fails"),
    "parallelize": (TAVERNA, "jobs", "how many jobs of the step may run at once, 1 to 64"),
    "maxJobs": (TAVERNA, "jobs", "how many jobs of the step may run at once, 1 to 64"),
    "retry": (TAVERNA, "retries", "how often an ask is repeated, 0 to 100"),
    "maxRetries": (TAVERNA, "retries", "how often an ask is repeated, 0 to 100"),
    "granularDepth": (TAVERNA, "depth", "one depth for each port"),
    "loop": (TAVERNA, None, "format 2 has loops: {\"service\": NAME, \"until\": TEXT, \"most\": ROUNDS}"),
    "sources": (TAVERNA, "inputs", "by name"),
    "sinks": (TAVERNA, "outputs", "by name"),
    "value": (TAVERNA, "constant", 'as {"constant": "x"}'),
    "dotproduct": (CWL, "dot", 'as {"dot": ["a", "b"]}'),
    "dot_product": (TAVERNA, "dot", 'as {"dot": ["a", "b"]}'),
    "dotProduct": (TAVERNA, "dot", 'as {"dot": ["a", "b"]}'),
    "zip": (SNAKEMAKE, "dot", 'as {"dot": ["a", "b"]}'),
    "nested_crossproduct": (CWL, "cross", 'as {"cross": ["a", "b"]}'),
    "flat_crossproduct": (CWL, "cross", 'as {"cross": ["a", "b"]}; its list is nested, and "flatten" makes one list of it'),
    "crossproduct": (TAVERNA, "cross", 'as {"cross": ["a", "b"]}'),
    "cross_product": (TAVERNA, "cross", 'as {"cross": ["a", "b"]}'),
    "crossProduct": (TAVERNA, "cross", 'as {"cross": ["a", "b"]}'),
    "product": (SNAKEMAKE, "cross", 'as {"cross": ["a", "b"]}'),
    "prefix": (TAVERNA, None, "format 2 has prefix nodes in its strategies"),
}
FIELDS_OF = {
    "taverna": "the document", "main": "the document", "flows": "the document", "steps": "a flow", "inputs": "a flow or step",
    "outputs": "a flow or step", "strategy": "a step", "activities": "a step", "retries": "a step", "jobs": "a step", "after": "a step",
    "depth": "a step's input port", "from": "a step's input port", "merge": "a feed", "constant": "a feed", "flow": "an activity",
    "service": "an activity", "cross": "a strategy", "dot": "a strategy",
}

# Services as other systems call them.

SERVICE_WORDS = {
    "upper": "toupper uppercase upcase toUpperCase to_upper capitalize capital",
    "lower": "tolower lowercase downcase toLowerCase to_lower",
    "length": "len strlen nchar",
    "count": "size num wc number_of_items",
    "distinct": "uniq unique set dedup deduplicate",
    "concat": "concatenate append paste0 strcat",
    "join": "implode paste concat_list merge_texts",
    "split": "tokenize explode strsplit splitlines",
    "take": "head first limit slice top",
    "flatten": "flat unnest chain flattenList",
    "add": "sum plus",
    "subtract": "minus diff difference sub",
    "range": "seq iota sequence numbers",
    "echo": "identity cat id pass print",
    "intersect": "intersection overlap common",
    "reverse": "rev backward",
}
SERVICE_HERE = {folded(word): here for here, words in SERVICE_WORDS.items() for word in words.split()}
PROGRAMS = set(
    "python python3 bash sh shell perl r rscript java beanshell docker rest wsdl tool command script xpath sed awk grep samtools bwa blast"
    " sort filter map".split()
)


def foreign(word, fields):
    """For a word of another system: whose it is, what stands here for it, and that field where it is one of these; else None thrice."""
    if word not in FOREIGN:
        return None, None, None
    whose, here, remark = FOREIGN[word]
    if here is None:
        return whose, remark, None
    if here in fields:
        return whose, f"here it is {quoted(here)}: {remark}", here
    return whose, f"here it is {quoted(here)}, in {FIELDS_OF[here]}: {remark}", None


def link_meant(text):
    """The link that a text means in another system's way, as (step, port) or (None, input); None where none is seen."""
    cwl = re.fullmatch(r"#?(?:main/)?(\w+)/(\w+)", text, re.A)
    taverna = re.fullmatch(r"(\w+)[:.](\w+)", text, re.A)
    snakemake = re.fullmatch(r"\{?rules\.(\w+)\.output(?:\.(\w+)|\[\d+\])?\}?", text, re.A)
    given = re.fullmatch(r"\$\(inputs\.(\w+)\)|\{input\.(\w+)\}|\$\{?(\w+)\}?|inputs?[./](\w+)", text, re.A)
    if given:
        return None, next(it for it in given.groups() if it)
    found = snakemake or cwl or taverna
    return (found[1], found[2] or "PORT") if found else None


def depth_meant(thing):
    """The depth that a type of another system means; None where none is seen."""
    if isinstance(thing, dict):
        if thing.get("type") == "array":
            inner = depth_meant(thing.get("items"))
            return None if inner is None else 1 + inner
        return depth_meant(thing.get("type")) if "type" in thing else None
    if not isinstance(thing, str):
        return None
    plain = re.fullmatch(r"(string|int|long|float|double|File|Directory|Any|text|String|Int|boolean)((\[\])*)\??", thing)
    if plain:
        return len(plain[2]) // 2
    wdl = re.fullmatch(r"((?:Array\[)*)(String|Int|File|Float)(\]*)\??", thing)
    if wdl and wdl[1].count("[") == len(wdl[3]):
        return len(wdl[3])
    return {"list": 1, "array": 1}.get(thing)

"""Compares docs/WRONG-BODIES.md with the wrong edits that stand: each has a line with a sum of its own text, and no line is of another one."""
import re

from edits.edit_pages import ROOT, crates_listed
from edits.statements import CODE_TOKEN, digest, first_name

DOCUMENT = ROOT / "docs/WRONG-BODIES.md"
CRATE = re.compile(r"### .*`(\w+)`")
LINE = re.compile(r"\| ([\w-]+) \| (.+) \| ([0-9a-f]{8}) \|")


def texts():
    """The text of each page of an edit, those of definitions of other crates and controls among them."""
    paths = (it for crate in crates_listed() for it in sorted((ROOT / "crates" / crate / "must-fail").glob("*.md")) if it.name != "README.md")
    return {f"{it.parent.parent.name}/{it.stem}": it.read_text(encoding="utf-8") for it in paths}


def sum_of(text):
    """A sum of what a page replaces by what. Names count as they were before records/renames, and files do not count."""
    pairs = (it for it in text.splitlines() if it.startswith(("old:", "new:", "control:")))
    return digest(*(first_name(word, "item") for it in pairs for word in CODE_TOKEN.findall(it)))[:8]


def told():
    """The edits that the document tells of, each with the number of its line and the sum there."""
    crate = None
    for number, line in enumerate(DOCUMENT.read_text(encoding="utf-8").splitlines(), 1):
        crate = CRATE.match(line)[1] if CRATE.match(line) else None if line.startswith("#") else crate
        found = LINE.fullmatch(line)
        if found and crate:
            yield f"{crate}/{found[1]}", number, found[3]


def refused_by():
    """The wrong bodies of the document: the number of the line, the functions that are said to refuse the body, and its edits."""
    columns = []
    for number, line in enumerate(DOCUMENT.read_text(encoding="utf-8").splitlines(), 1):
        cells = [it.strip() for it in line.strip("|").split("|")] if line.startswith("|") else []
        if columns[:1] == ["wrong body"] and len(cells) == len(columns) and not cells[0].startswith("---"):
            edits = [f"{crate}/{it}" for crate, names in re.findall(r"`(\w+)`([^;`]*)", cells[columns.index("wrong edits")]) for it in re.findall(r"[\w-]+", names)]
            yield number, set(re.findall(r"\w+", cells[columns.index("function: clause")])), edits
        elif columns[:1] != ["wrong body"] or not cells:
            columns = cells


def faults(records):
    """What does not agree between the document, the edits and their records."""
    standing, lines = texts(), {}
    for name, number, line_sum in told():
        if name in lines:
            yield f"{DOCUMENT.name}:{number}: {name} stands in line {lines[name][0]} already"
        lines[name] = number, line_sum
    for name, (number, line_sum) in lines.items():
        if name not in standing:
            yield f"{DOCUMENT.name}:{number}: there is no edit {name}"
        elif line_sum != sum_of(standing[name]):
            yield f"{DOCUMENT.name}:{number}: the edit {name} has changed: say again what it does, with the sum {sum_of(standing[name])}"
    for name in [it for it in standing if it not in lines]:
        yield f"{DOCUMENT.name}: {name} is not there; say what it does, with the sum {sum_of(standing[name])}"
    for number, functions, edits in refused_by():
        for name in edits:
            by = records[name].by.split("::")[-1] if name in records else "crate"
            if by != "crate" and not name.startswith("cp_meaning/") and by not in functions:
                yield f"{DOCUMENT.name}:{number}: {name} is refused by {by}, which is not named there"

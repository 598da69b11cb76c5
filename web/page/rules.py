"""rules.py: the texts of the rules in docs/RULES.md, for the page to show beside a refusal."""
import re


def rules_of(text):
    """For each rule its title and its parts: paragraphs, the first two columns of a table, and the two programs, one that breaks it and one that keeps it."""
    sections = re.findall(r"^## (C\d+): ([^\n]+)\n(.*?)(?=^## )", text, re.M | re.S)
    return {code: {"title": title, "parts": list(parts_of(body))} for code, title, body in sections}


def parts_of(body):
    for block in filter(None, (it.strip("\n") for it in re.split(r"\n\s*\n", body))):
        lines = block.split("\n")
        if block.startswith("    "):
            yield {"is": "programs", "lines": [it.strip() for it in lines]}
        elif block.startswith("|"):
            rows = [[plain(cell) for cell in it.strip("|").split(" | ")[:2]] for it in [lines[0], *lines[2:]]]
            yield {"is": "table", "rows": rows}
        else:
            yield {"is": "text", "text": plain(" ".join(lines))}


def plain(text):
    """Without the marks of links; words of programs keep their backquotes, which the page shows as code."""
    return re.sub(r"\[([^]]*)\]\([^)]*\)", r"\1", text).replace("*same*", "same").strip()

"""The marks as a page: each cell leads to what is said of it, with its picture, and what fails to a page to play."""
import html
import os
import re
import stat
from pathlib import Path
from urllib.parse import quote

from .program import Stopped, TimeIsOver
from .rows import heads_of

STYLE = """body{font:15px/1.4 system-ui,sans-serif;margin:2em auto;max-width:72em;padding:0 1em;color:#1a1a1a;background:#fff}
.table{overflow:auto;max-height:92vh}table{border-collapse:collapse}th{position:sticky;top:0;background:#fff}
@media print{.table{overflow:visible;max-height:none}th{position:static}}th,td{border:1px solid #999;padding:.3em .6em;text-align:left;vertical-align:top}
.holds{background:#dff2e1}.fails,.refused{background:#f9dcdc}pre{font:inherit;white-space:pre-wrap;margin:.3em 0}figure{margin:1em 0;overflow-x:auto}
svg{max-width:100%;height:auto}h2{margin-top:2em}"""

# Where a tag of a picture names one of its parts.
TAG = re.compile(r"<[^>]*>")
PART = re.compile(r'\bid="|url\(#|href="#')


class Shown:
    """A schedule against an expectation: its picture, and the page on which it is laid out."""

    def __init__(self, picture, page):
        self.picture, self.page = picture, page


def show(row, asked):
    """Gives a row the pictures and pages of the schedules against it, each once."""
    row.shown = {}
    for cell in row.cells:
        if row.solution is not None and cell.word and (cell.word, cell.again) not in row.shown:
            try:
                row.shown[cell.word, cell.again] = Shown(picture(row.solution, asked, cell), page(row.solution, asked, cell))
            except (TimeIsOver, Stopped):
                return


def schedule(cell):
    return ["--schedule", "none" if cell.word == "-" else cell.word, *(["--again", cell.again] if cell.again else [])]


def picture(solution, asked, cell):
    """Returns the picture of the schedule of a cell, nothing where it can't be made."""
    solution.begin()
    answer = solution.run("lanes", *asked.options_of("--ends", "--at-once"), *schedule(cell))
    return solution.with_numbers(answer.text[answer.text.index("<svg") :]) if answer.status == 0 and "<svg" in answer.text else ""


def page(solution, asked, cell):
    solution.begin()
    answer = solution.run("page", *asked.options_of("--at-once", "--states", "--merge"), *schedule(cell))
    return answer.text if answer.status == 0 else ""


def short_names(names):
    """Returns the names without the folders that all have in common, and without the ending .cp, where they can be told apart so."""
    for count in range(1, max((len(Path(it).parts) for it in names), default=1) + 1):
        short = ["/".join(Path(it).parts[-count:]).removesuffix(".cp") for it in names]
        if len(set(short)) == len(set(names)):
            return short
    return names


class Folder:
    """The folder with the pages to play, and how the page of the marks leads there."""

    def __init__(self, name):
        self.path = Path(name)
        self.path.mkdir(parents=True, exist_ok=True)
        self.link = os.path.relpath(self.path, folder_of_output())
        self.taken = set()

    def leave(self):
        """Takes the folder away where nothing is in it."""
        if not any(self.path.iterdir()):
            self.path.rmdir()

    def keep(self, name, text):
        """Writes a page, and returns the link that leads to it."""
        safe = re.sub(r"[^A-Za-z0-9._-]+", "-", name)
        while safe in self.taken:
            safe += "-"
        self.taken.add(safe)
        (self.path / f"{safe}.html").write_text(text, encoding="utf-8")
        return quote(f"{self.link}/{safe}.html")


def folder_of_output():
    """Returns the folder of the file that standard output goes to; where it is no file, that in which we are."""
    try:
        if stat.S_ISREG(os.fstat(1).st_mode):
            return os.path.dirname(os.readlink("/proc/self/fd/1"))
    except OSError:
        pass
    return os.getcwd()


def as_page(asked, rows, folder):
    heads = heads_of(asked, lambda it: short_names([it])[0])
    names = short_names([it.name for it in rows])
    made = ['<!DOCTYPE html>\n<html lang="en"><head><meta charset="utf-8"><meta name="viewport" content="width=device-width, initial-scale=1"><title>Marks</title>']
    made.append(f'<style>{STYLE}</style></head><body><h1>Marks</h1><div class="table"><table>')
    made.append("<tr><th>solution</th>" + "".join(f"<th>{html.escape(it)}</th>" for it in heads) + "<th>points</th></tr>")
    below = []
    for number, (row, name) in enumerate(zip(rows, names), 1):
        links = {key: folder.keep(f"{name}-{at}", it.page) for at, (key, it) in enumerate(row.shown.items(), 1) if it.page}
        cells = "".join(cell_of(it, f"s{number}" if row.told else f"s{number}-{at}", links) for at, it in enumerate(row.cells, 1))
        made.append(f'<tr><td title="{html.escape(row.name)}">{html.escape(name)}</td>{cells}<td>{row.points} of {len(heads)}</td></tr>')
        below += told_of(row, name, number, heads, links)
    return "\n".join([*made, "</table></div>", *below, "</body></html>"]) + "\n"


def cell_of(cell, anchor, links):
    kind = cell.verdict if cell.verdict in ("holds", "fails", "refused") else "open"
    said = html.escape(cell.verdict)
    if cell.said:
        said = f'<a href="#{anchor}">{said}</a>'
    link = links.get((cell.word, cell.again))
    return f'<td class="{kind}">{said}{play(link)}</td>'


def play(link):
    return f' <a href="{link}">play</a>' if link else ""


def with_own_names(drawn, prefix):
    """Returns a picture whose parts have names that no other one has."""
    return TAG.sub(lambda tag: PART.sub(lambda it: it[0] + prefix, tag[0]), drawn)


def told_of(row, name, number, heads, links):
    """Returns what is said of a solution below the table, with one picture for those cells that have one schedule."""
    if row.told:
        return [f'<h2 id="s{number}">{html.escape(name)}</h2><pre>{html.escape(row.told)}</pre>']
    groups = {}
    for at, (head, it) in enumerate(zip(heads, row.cells), 1):
        if it.said:
            said = f"<p><b>{html.escape(head)}</b>: {html.escape(it.verdict)}{play(links.get((it.word, it.again)))}</p><pre>{html.escape(it.said)}</pre>"
            groups.setdefault((it.word, it.again) if it.word else at, []).append(f'<div id="s{number}-{at}">{said}</div>')
    made = []
    for at, (key, parts) in enumerate(groups.items(), 1):
        drawn = row.shown[key].picture if key in row.shown else ""
        drawn = with_own_names(drawn, f"p{number}-{at}-")
        made += ["<section>", *parts, f"<figure>{drawn}</figure>" if drawn else "", "</section>"]
    return [f"<h2>{html.escape(name)}</h2>", *made] if made else []

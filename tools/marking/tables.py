"""The marks as a text, and as a table for other programs, of which several can be taken together."""
import csv
import io

from .rows import heads_of
from .words import Refused


def as_text(asked, rows):
    """Returns the rows with their columns numbered, and below them what is said of each."""
    heads = heads_of(asked)
    lines = [f"{number}  {head}" for number, head in enumerate(heads, 1)] + [""]
    wide = max((len(it.name) for it in rows), default=0)
    widths = [max([len(str(n + 1))] + [len(row.cells[n].verdict) for row in rows]) for n in range(len(heads))]
    lines.append("  ".join(["".ljust(wide)] + [str(n + 1).ljust(widths[n]) for n in range(len(heads))] + ["points"]))
    for row in rows:
        verdicts = [it.verdict.ljust(widths[n]) for n, it in enumerate(row.cells)]
        lines.append("  ".join([row.name.ljust(wide), *verdicts, f"{row.points} of {len(heads)}"]))
    for row in rows:
        said = [f"  {number}  " + it.said.replace("\n", "\n     ") for number, it in enumerate(row.cells, 1) if it.said]
        if row.told:
            said = ["  " + row.told.replace("\n", "\n  ")]
        if said:
            lines += ["", row.name, *said]
    return "\n".join(lines) + "\n"


def as_csv(asked, rows):
    heads = heads_of(asked)
    return csv_of([["file", *heads, "points", *(f"why: {it}" for it in heads)], *(cells_of(row) for row in rows)])


def cells_of(row):
    """Returns the fields of a row; what is told of all cells stands in the first column for it alone."""
    said = [it.line() for it in row.cells]
    if row.told:
        said[1:] = [""] * (len(said) - 1)
    return [row.name, *(it.verdict for it in row.cells), row.points, *said]


def csv_of(rows):
    text = io.StringIO()
    csv.writer(text, lineterminator="\n").writerows(rows)
    return text.getvalue()


def together(asked, bytes_of):
    """Returns the rows of several tables as one. A file that stands in more than one counts as in the last."""
    head, found = None, {}
    for name in asked.files:
        for number, row in rows_of(name, bytes_of):
            if head is None:
                head = row
                if row[:1] != ["file"] or "points" not in row:
                    raise Refused(f"{name} is no table that --csv has written")
            elif row[0] == "file" and "points" in row and row != head:
                raise Refused(f"{name}, line {number}: other columns than in {asked.files[0]}")
            elif len(row) != len(head):
                raise Refused(f"{name}, line {number}: {len(row)} columns, wanted {len(head)}")
            elif row != head:
                found[row[0]] = row
    return csv_of([head or [], *found.values()])


def rows_of(name, bytes_of):
    """Returns the rows of a table that are not empty, each with its line."""
    try:
        text = bytes_of(name).decode("utf-8", "surrogateescape")
    except OSError as fault:
        raise Refused(f"{name} can't be read: {fault.strerror or fault}") from fault
    reader = csv.reader(io.StringIO(text, newline=""))
    try:
        return [(reader.line_num, row) for row in reader if row]
    except csv.Error as fault:
        raise Refused(f"{name}, line {reader.line_num}: {fault}") from fault

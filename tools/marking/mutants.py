"""Which of the usual mistakes in a model no expectation notices."""
from .cells import Cell, marks
from .likeness import compared, liken
from .mistakes import Maker
from .program import TimeIsOver
from .rows import in_turn
from .solution import Solution
from .status import DONE, FAILS, NOT_ALL, NOT_SETTLED, SOURCE_REFUSED
from .tables import csv_of

# What can be known of a mistake: the checker refuses it, an expectation notices it, or none does. Then it comes to something else than the model, or to the
# same, or that is not settled. It may also take too much to say whether it is noticed.
REFUSED, NOTICED, OTHER, SAME, OPEN = "refused", "noticed", "other", "the same", "not settled"
TOO_MUCH, UNMARKED = "too much", "not marked"


class Tried:
    """A mistake with a cell for each expectation and, where all hold, the one that compares it with the model."""

    def __init__(self, mistake, line, cells, likeness):
        self.mistake, self.line, self.cells, self.likeness = mistake, line, cells, likeness

    def kind(self):
        verdicts = {it.verdict for it in self.cells}
        if verdicts == {"holds"}:
            return {"holds": SAME, "fails": OTHER}.get(self.likeness.verdict, OPEN)
        if verdicts <= {"holds", "too slow", "too many"}:
            return TOO_MUCH
        return next((it for it in (REFUSED, UNMARKED) if it in verdicts), NOTICED)

    def said(self):
        """What tells it from the model, or else why an expectation does not hold of it."""
        return self.likeness or next(it for it in self.cells if it.verdict != "holds")


def model_fault(model, asked):
    """Returns what is told of a model of which not all expectations hold, and the status; nothing where all do."""
    cells = marks(model, asked)
    against = [(head, it) for head, it in zip(asked.expectations, cells) if it.verdict != "holds"]
    if not against:
        return None
    verdicts = {it.verdict for _, it in against}
    if "refused" in verdicts:
        return f"{asked.mutants} is refused: {cells[0].said}\n", SOURCE_REFUSED
    lines = [f"not all that is expected holds of {asked.mutants}, so no mistakes are made in it"]
    for head, it in against:
        lines += [f"  {it.verdict}: {asked.under(head)}", *(f"    {line}" for line in it.said.splitlines())]
    return "\n".join(lines) + "\n", FAILS if "fails" in verdicts else NOT_SETTLED


def try_mistakes(program, frame, asked, model, like):
    """Returns what is told of the mistakes in a model of which all that is expected holds, how many of how many were tried, and the status. What mistakes come to
    is compared with `like`, which may be the cell that says why that is not known."""
    begin, end = len(frame.top), len(model.source) - len(frame.bottom)
    mistakes = Maker(model.source, begin, end).all()

    def tried(mistake):
        solution = Solution(program, frame, mistake.source[begin : len(mistake.source) - len(frame.bottom)], asked.seconds)
        try:
            cells = marks(solution, asked)
            is_noticed = any(it.verdict != "holds" for it in cells)
            likeness = None if is_noticed else like if isinstance(like, Cell) else liken(solution, asked, like)
        except TimeIsOver:
            cells, likeness = [Cell(UNMARKED)] * len(asked.expectations), None
        return Tried(mistake, mistake.line - model.above, cells, likeness)

    found = in_turn(program, tried, mistakes, "mistakes marked")
    text = mistakes_as_csv(asked, found) if asked.form == "csv" else mistakes_as_text(asked, found)
    kinds = {it.kind() for it in found}
    return text, len(found), len(mistakes), NOT_ALL if UNMARKED in kinds else FAILS if OTHER in kinds else DONE


def mistakes_as_text(asked, found):
    """Returns how many mistakes each expectation notices, and those that none does."""
    those = {kind: [it for it in found if it.kind() == kind] for kind in (REFUSED, NOTICED, OTHER, SAME, OPEN, TOO_MUCH, UNMARKED)}
    counts = [f"{len(those[REFUSED])} refused, {len(those[NOTICED])} noticed, {len(those[OTHER] + those[SAME] + those[OPEN])} not noticed"]
    counts += [f"{len(those[kind])} {words}" for kind, words in ((TOO_MUCH, "not settled"), (UNMARKED, "not marked")) if those[kind]]
    lines = [f"{len(found)} mistake{'s' if len(found) != 1 else ''}: {', '.join(counts)}", ""]
    for number, head in enumerate(asked.expectations):
        lines.append(f"{number + 1}  {asked.under(head)}: notices {sum(it.cells[number].verdict != 'holds' for it in those[NOTICED])}")
    what = compared(asked)
    lines += listed(f"not noticed, and other {what}", those[OTHER])
    lines += listed(f"not noticed, and the same {what}", those[SAME])
    lines += listed(f"not noticed, and not settled whether other {what}", those[OPEN])
    lines += listed("not settled whether noticed", those[TOO_MUCH])
    return "\n".join(lines) + "\n"


def listed(head, those):
    """Returns lines for mistakes, each with its line and change, and what tells it from the model."""
    if not those:
        return []
    lines = ["", f"{head}:"]
    wide = max(len(str(it.line)) for it in those)
    for it in those:
        lines.append(f"  line {it.line:<{wide}}  {it.mistake.name}: {it.mistake.change()}")
        lines += [f"       {'':{wide}}  {line}" for line in it.said().said.splitlines()]
    return lines


def mistakes_as_csv(asked, found):
    """Returns a row for each mistake."""
    head = ["line", "mistake", "is", "becomes", *map(asked.under, asked.expectations), asked.under(compared(asked)), "why"]
    rows = []
    for it in found:
        likeness = {OTHER: "other", SAME: "the same", OPEN: "not settled"}.get(it.kind(), "")
        rows.append([it.line, it.mistake.name, it.mistake.old, it.mistake.new, *(cell.verdict for cell in it.cells), likeness, it.said().line()])
    return csv_of([head, *rows])

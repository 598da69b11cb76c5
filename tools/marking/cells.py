"""Whether expectations hold of a solution."""
import json
import re

AGAINST = re.compile(r"against it: (\S+)(?: again (\S+?):)?")
VERDICTS = {0: "holds", 1: "refused", 2: "no expectation", 3: "no memory", 4: "could not be read", 5: "too many", 6: "fails", 7: "not settled"}


class Cell:
    """Whether an expectation holds of a solution, what is said of it, and the schedule against it, with the round that can be gone again."""

    def __init__(self, verdict, said="", word=None, again=None):
        self.verdict, self.said, self.word, self.again = verdict, said, word, again

    def line(self):
        return "; ".join(it.strip() for it in self.said.splitlines())


def too_slow(solution):
    return Cell("too slow", f"not marked within {solution.seconds} seconds")


def unmarked(solution, answer):
    """Returns the cell of a solution of which no mark can be told: it was too slow, or is refused, or the program could not answer."""
    if answer.status is None:
        return too_slow(solution)
    if answer.status == 1:
        return Cell("refused", solution.refusal())
    return Cell(VERDICTS.get(answer.status, f"status {answer.status}"))


def marks(solution, asked):
    """Returns a cell for each expectation. All are asked at once, so that the schedules are gone through once."""
    expectations = asked.expectations
    if not expectations:
        return []
    answer = ask(solution, asked, " and ".join(expectations))
    if answer.status == 2 and len(expectations) > 1:
        return [cells(solution, [it], ask(solution, asked, it))[0] for it in expectations]
    return cells(solution, expectations, answer)


def ask(solution, asked, words):
    return solution.run("mark", "--json", *asked.options, words)


def cells(solution, expectations, answer):
    """Returns a cell for each expectation, of what is told of all."""
    told = json.loads(answer.text) if answer.text and answer.status not in (None, 1) else {}
    left = list(told.get("known", told).get("expectations", []))
    if not left:
        cell = Cell(VERDICTS[2], told["misread"]) if "misread" in told else unmarked(solution, answer)
        return [cell] * len(expectations)
    found = []
    for expectation in expectations:
        count = expectation.split().count("and") + 1
        found.append(joined(solution, left[:count], answer.status == 5))
        left = left[count:]
    return found


def joined(solution, parts, is_cut):
    """Returns the cell of an expectation, which may be several that are joined by 'and'. Where there was too much, only a schedule settles one."""
    failed = [it for it in parts if it["verdict"] == "fails" and not (is_cut and "against it: " not in it.get("said", ""))]
    if failed:
        said = "\n".join(it["said"] for it in failed)
        against = AGAINST.search(said)
        return Cell("fails", solution.with_lines(said), against and against[1], against and against[2])
    settled = [it for it in parts if it["verdict"] == "holds" and not (is_cut and "first" not in it)]
    if len(settled) == len(parts):
        return Cell("holds")
    said = "\n".join(it.get("said", "") for it in parts if it not in settled)
    return Cell("too many" if is_cut else "not settled", solution.with_lines(said) or "too many states or outcomes")

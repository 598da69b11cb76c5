"""A row for each solution, made by several threads, with a line on a terminal that tells how many are done."""
import os
import sys
import time
from concurrent.futures import ThreadPoolExecutor, wait

from .cells import Cell, marks
from .lexemes import what_displays
from .likeness import compared, liken
from .program import Stopped, TimeIsOver
from .solution import Solution, bytes_of


class Row:
    """The cells of a solution. What is told of all of them alike is `told`, and said once."""

    def __init__(self, solution, name, cells):
        self.solution, self.name, self.cells = solution, name, cells
        self.points = sum(it.verdict == "holds" for it in cells)
        first = cells[0]
        is_one = all((it.verdict, it.said) == (first.verdict, first.said) for it in cells)
        self.told = first.said if is_one and first.verdict not in ("holds", "fails", "not settled") else ""


class Progress:
    """A line at a terminal on standard error that tells of work of more than half a second, and is taken away at the end."""

    def __init__(self, what):
        self.what, self.is_shown = what, False
        self.begins = time.monotonic() + 0.5
        self.is_terminal = sys.stderr is not None and sys.stderr.isatty()

    def tell(self, done, count):
        if self.is_terminal and time.monotonic() >= self.begins:
            self.is_shown = True
            print(f"\r{done} of {count} {self.what}", end="", file=sys.stderr, flush=True)

    def end(self):
        if self.is_shown:
            print("\r\033[K", end="", file=sys.stderr, flush=True)


def in_turn(program, work, items, what):
    """Returns what the work makes of each item, in their order, by half as many threads as there are processors; where Control-C is pressed, of those that are
    done by then."""
    progress = Progress(what)
    with ThreadPoolExecutor(max(1, (os.cpu_count() or 2) // 2)) as pool:
        made = [pool.submit(work, it) for it in items]
        left = made
        while left and not program.is_stopped:
            progress.tell(len(made) - len(left), len(made))
            left = wait(made, 0.2).not_done
        for it in left:
            it.cancel()
    progress.end()
    done = [it for it in made if not it.cancelled()]
    return [it.result() for it in done if not isinstance(it.exception(), Stopped)]


def heads_of(asked, name=str):
    """Returns the heads of the columns, in which a model has the name that is made of that of its file."""
    heads = asked.expectations + ([f"like {name(asked.like)}: {compared(asked)}"] if asked.like is not None else [])
    return [asked.under(it) for it in heads]


def cells_of(solution, asked, model):
    """Returns the cells of a solution, all alike where it may not display anything and does."""
    if asked.no_display:
        displays = what_displays(solution)
        if displays:
            return [Cell("displays", displays)] * len(heads_of(asked))
    return marks(solution, asked) + ([liken(solution, asked, model)] if model else [])


def row_of(program, frame, asked, model, name):
    """Returns the row of a file."""
    count = len(heads_of(asked))
    try:
        solution = Solution(program, frame, bytes_of(name), asked.seconds)
        return Row(solution, name, cells_of(solution, asked, model))
    except OSError as fault:
        return Row(None, name, [Cell("unreadable", fault.strerror or str(fault))] * count)
    except TimeIsOver:
        return Row(None, name, [Cell("not marked", f"not within the {asked.minutes} minutes of all")] * count)

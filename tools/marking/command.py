"""What ./class does with its words, and its status."""
import os
import re
import signal
import sys

from sources import fault_of

from .cells import Cell, marks
from .likeness import ways
from .mutants import model_fault, try_mistakes
from .pages import Folder, as_page, show
from .program import Program, Stopped, TimeIsOver, path_of_program
from .reading import read_all
from .rows import in_turn, row_of
from .solution import Frame, Solution, bytes_of
from .status import DONE, FAILS, FAULT, INTERRUPTED, NOT_ALL, WORDS_REFUSED
from .tables import as_csv, as_text, together
from .words import Asked, Refused


def run(root, words, help_text):
    """Does what the words ask for. Returns the status."""
    if "--help" in words or "-h" in words:
        return write(f"{help_text}\n", DONE)
    try:
        return answer(root, Asked(words))
    except Refused as why:
        say(f"{why} (./class --help says more)")
        return WORDS_REFUSED
    except Stopped:
        return INTERRUPTED
    except TimeIsOver:
        say("--minutes is over, and nothing is marked yet")
        return NOT_ALL
    except OSError as fault:
        say(f"{fault.filename}: {fault.strerror}" if fault.filename else fault)
        return FAULT


def answer(root, asked):
    if asked.are_parts():
        return write(together(asked, bytes_of), DONE)
    refuse_what_is_no_file(asked.files)
    path = path_of_program(root)
    if path is None:
        raise Refused("there is no proved build yet: ./build makes it")
    fault = fault_of(path, root)
    if fault and not asked.other_sources:
        raise Refused(f"{fault}, and --other-sources marks with it")
    if fault:
        say(fault)
    program = Program(path, asked.minutes)
    stop_at_interrupt(program)
    read_all(program, asked)
    frame = opened(Frame, asked)
    if asked.mutants is not None:
        text, status = mistakes_of(program, frame, asked)
    else:
        text, status = marks_of(program, frame, asked)
    if program.is_stopped:
        status = INTERRUPTED
    return write(text, status, "replace" if asked.form == "html" else "surrogateescape")


def refuse_what_is_no_file(names):
    """Stops where a folder is named, or what is no file, such as a pattern that no name fits."""
    for name in names:
        if os.path.isdir(name):
            raise Refused(f"{name} is a folder: name the files in it")
        if name != "-" and not os.path.lexists(name):
            raise Refused(f"there is no file {name}")


def marks_of(program, frame, asked):
    """Returns the marks of all solutions, in the form that is asked for, and the status."""
    model, status = None, DONE
    if asked.like is not None:
        solution = model_of(program, frame, asked.like, asked)
        model = ways(solution, asked)
        if isinstance(model, Cell):
            raise Refused(f"{asked.like}: {model.verdict}: {model.said}")
        status = DONE if is_as_expected(solution, asked) else FAILS
    folder = Folder(asked.own.get("--pages", "class-pages")) if asked.form == "html" else None

    def row(name):
        made = row_of(program, frame, asked, model, name)
        if folder is not None:
            show(made, asked)
        return made

    rows = in_turn(program, row, asked.files, "solutions marked")
    if program.is_stopped:
        say(f"interrupted: {len(rows)} of {len(asked.files)} solutions are marked")
    if not program.is_stopped:
        refuse_broken_frame(frame, rows)
    is_all = not any(cell.verdict == "not marked" for it in rows for cell in it.cells)
    return written(asked, rows, folder), status if is_all else NOT_ALL


def is_as_expected(model, asked):
    """Answers whether all that is expected holds of a model, and says what does not: no solution should lose a point by it."""
    model.begin()
    against = [(head, it) for head, it in zip(asked.expectations, marks(model, asked)) if it.verdict != "holds"]
    for head, cell in against:
        say(f"{asked.like} itself does not have what is expected: {head}: {cell.verdict}: {cell.line()}")
    return not against


def refuse_broken_frame(frame, rows):
    """Stops where what stands around the solutions is refused, and not they: with any of them at the same place, and below them, with two or more."""
    told = {it.told for it in rows}
    if len(told) != 1 or any(it.cells[0].verdict != "refused" for it in rows):
        return
    said = told.pop()
    for name, least in zip(frame.names, (1, 2)):
        if name is not None and len(rows) >= least and re.match(rf"line \d+ of {re.escape(name)}\b", said):
            raise Refused(f"each solution is refused for what stands around it: {said}")


def written(asked, rows, folder):
    """Returns the marks in the form that is asked for."""
    if folder is None:
        return as_csv(asked, rows) if asked.form == "csv" else as_text(asked, rows)
    text = as_page(asked, rows, folder)
    folder.leave()
    return text


def mistakes_of(program, frame, asked):
    """Returns what is told of the mistakes in a model, and the status."""
    model = model_of(program, frame, asked.mutants, asked)
    fault = model_fault(model, asked)
    if fault:
        return fault
    model.begin()
    like = ways(model if asked.like is None else model_of(program, frame, asked.like, asked), asked)
    text, done, count, status = try_mistakes(program, frame, asked, model, like)
    if program.is_stopped:
        say(f"interrupted: {done} of {count} mistakes are marked")
    return text, status


def model_of(program, frame, name, asked):
    return Solution(program, frame, opened(bytes_of, name), asked.seconds)


def opened(read, name):
    """Returns what is read, and stops where a file can't be."""
    try:
        return read(name)
    except OSError as fault:
        raise Refused(f"{fault.filename or '-'} can't be read: {fault.strerror}") from fault


def stop_at_interrupt(program):
    """Has Control-C end what runs, so that what is marked so far can be written; a second one ends all."""
    if signal.getsignal(signal.SIGINT) is not signal.default_int_handler:
        return

    def stop(*_):
        signal.signal(signal.SIGINT, signal.SIG_DFL)
        program.stop()

    signal.signal(signal.SIGINT, stop)


def say(what):
    if sys.stderr is not None:
        print(f"./class: {what}", file=sys.stderr)


def write(text, status, errors="surrogateescape"):
    """Writes the answer. Returns the status; nothing is said where nobody reads on."""
    try:
        if sys.stdout is None:
            raise OSError(None, "it is closed")
        sys.stdout.buffer.write(text.encode("utf-8", errors))
        sys.stdout.buffer.flush()
        return status
    except BrokenPipeError:
        pass
    except OSError as fault:
        say(f"writing the answer failed: {fault.strerror}")
    return FAULT

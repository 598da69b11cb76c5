"""One random program after the other: made, asked, compared."""
import signal
from collections import Counter

from random_programs import changing, maker
from random_programs.answers import Differs, OutOfTime
from random_programs.chooser import Chooser
from random_programs.comparing import NotCompared, Question, compare
from random_programs.questions import Asker
from random_programs.reading import Meaning, options, schedules
from random_programs.smaller import smaller

SECONDS = 4
QUESTIONS = 3
SHARE_OF_WRONG = 0.4
ATTEMPTS, SHARE_OF_ANY = 5, 0.1


class Late(Exception):
    """The reference took too long."""


def late(number, frame):
    raise Late


class within:
    """At most so many seconds of this process for what is done here, whatever else the machine does."""

    def __init__(self, seconds):
        self.seconds = seconds

    def __enter__(self):
        signal.signal(signal.SIGVTALRM, late)
        signal.setitimer(signal.ITIMER_VIRTUAL, self.seconds)

    def __exit__(self, *fault):
        signal.setitimer(signal.ITIMER_VIRTUAL, 0)


class Tried:
    """What came of one program: how many answers of each kind were compared, why others were not, what it uses and meets, and what differs."""

    def __init__(self, seed):
        self.seed, self.compared, self.not_compared, self.used, self.met = seed, Counter(), Counter(), Counter(), Counter()
        self.source, self.differences = "", []


def differs(question, source, programs, meaning=None):
    """How an answer differs, as (what, told, wanted), or None; raises what stops the comparison."""
    try:
        compare(question, source, meaning or Meaning(source), programs)
    except Differs as difference:
        return difference.what, difference.told, difference.wanted
    return None


def ask(tried, question, meaning, programs):
    try:
        with within(SECONDS):
            found = differs(question, tried.source.encode("latin-1"), programs, meaning)
    except NotCompared as why:
        tried.not_compared[f"{question.kind}: {why}"] += 1
    except (Late, OutOfTime, RecursionError) as why:
        tried.not_compared[f"{question.kind}: {type(why).__name__}"] += 1
    else:
        tried.compared[question.kind] += 1
        if found:
            tried.differences.append((question, found))


def right_program(seed, chooser):
    """The source, what it uses, and what it means: most often the first of a few in which some choice is due."""
    for attempt in range(ATTEMPTS):
        source, used = maker.program(f"{seed} {attempt}")
        meaning = Meaning(source.encode("latin-1"))
        if meaning.refused or chooser.chance(SHARE_OF_ANY):
            break
        try:
            # (a stretch of so few steps takes no time, and the program of a seed must not depend on how fast a machine is)
            if meaning.graph(options.read(["--steps", "100"])).after(None, None).node is not None:
                break
        except RecursionError:
            continue
    return source, used, meaning


def try_program(seed, programs):
    """Makes the program of a seed and compares what both sides say of it."""
    tried, chooser = Tried(seed), Chooser(f"ask {seed}")
    tried.source, tried.used, meaning = right_program(seed, chooser)
    is_changed = chooser.chance(SHARE_OF_WRONG)
    if is_changed:
        tried.source, how = changing.changed(tried.source, seed)
        tried.used = Counter(f"change {name}" for name in how)
        meaning = Meaning(tried.source.encode("latin-1"))
    elif meaning.refused:
        tried.met["refused, though it was made to be right"] += 1
    ask(tried, Question("refusal", ()), meaning, programs)
    tried.met["refused: " + meaning.refused.split(" ", 2)[2] if meaning.refused else "accepted"] += 1
    if meaning.refused is None:
        for make in Asker(chooser, meaning).questions(QUESTIONS if not is_changed else 1):
            try:
                with within(SECONDS):
                    question = make()
            except (Late, RecursionError, schedules.TooMany) as why:
                tried.not_compared[f"{type(why).__name__} while a question was made"] += 1
                continue
            ask(tried, question, meaning, programs)
    note_meetings(tried, meaning)
    return tried


def note_meetings(tried, meaning):
    """Which ends, errors and kernel calls the reference has met on the way."""
    for graph in meaning.graphs.values():
        for stretched in graph.followed.values():
            words = (stretched.end or "").split()
            if words:
                tried.met[f"end {' '.join(words[:2]) if words[0] == 'run-error' else words[0]}"] = 1
            tried.met.update(f"call {event}" for event in getattr(stretched, "events", ()))


def made_smaller(source, question, difference, programs, seconds):
    """The source made smaller, as long as the same sort of answer differs."""
    def holds(source):
        try:
            with within(SECONDS):
                meaning = Meaning(source.encode("latin-1"))
                if meaning.refused and question.kind != "refusal":
                    return False
                found = differs(question, source.encode("latin-1"), programs, meaning)
        except (NotCompared, Late, OutOfTime, RecursionError, UnicodeEncodeError):
            return False
        return found is not None and sort_of(found[0]) == sort_of(difference[0])

    return smaller(source, holds, seconds)


def sort_of(what):
    """What differs, without the numbers and texts in it."""
    return what.split(":")[0].split(" of ")[0]

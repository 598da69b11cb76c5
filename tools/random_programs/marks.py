"""Expectations, and whether they hold by all rows of a table or by all ends of schedules of any length, computed plainly."""
from dataclasses import dataclass

from random_programs.reading import LIMITS, report

ENDLESS = ("alone", "spins")
RUN_ERRORS = report.RUN_ERRORS


@dataclass(frozen=True)
class Topic:
    """`end` is finished, all-waiting, run-error, alone or spins, or None; `who` are groups of processes, None: anybody."""
    text: str
    end: str = None
    error: str = None
    who: tuple = None
    others: bool = False
    output: tuple = None
    shown: str = None
    waiting: tuple = None

    def is_of_end(self, kind, waiting, output):
        """Whether a schedule that ends so is one of this topic."""
        word, *rest = kind.split()
        if self.end is None or word != self.end or self.error and rest[0] != self.error:
            return False
        if self.output is not None and not fits(self.output, output):
            return False
        if self.end in ENDLESS:
            return self.who is None or int(rest[1]) in self.who[0]
        if self.end == "all-waiting" and self.who is not None:
            return all(set(group) & set(waiting) for group in self.who) and (self.others or set(waiting) <= set().union(*self.who))
        return True

    def shows(self, output):
        return self.shown is not None and self.shown in output


def fits(pattern, output):
    """Whether values are these, where '..' stands for any number of them."""
    if not pattern:
        return not output
    if pattern[0] == "..":
        return any(fits(pattern[1:], output[number:]) for number in range(len(output) + 1))
    return bool(output) and output[0] == pattern[0] and fits(pattern[1:], output[1:])


@dataclass(frozen=True)
class Expectation:
    word: str
    topics: tuple

    @property
    def text(self):
        return f"{self.word} " + " or ".join(topic.text for topic in self.topics)


class Expectations:
    """Makes expectations of a program, with what it displays in `values`."""

    def __init__(self, chooser, processes, values, is_endless, may_wait):
        self.chooser, self.processes, self.values, self.is_endless, self.may_wait = chooser, processes, values, is_endless, may_wait

    def make(self):
        return [self.expectation() for _ in range(self.chooser.pick(1, 1, 2, 3))]

    def expectation(self):
        word = self.chooser.pick("never", "some", "only")
        return Expectation(word, tuple(self.topic(word) for _ in range(self.chooser.pick(1, 1, 2))))

    def topic(self, word):
        kinds = [(3, self.of_end), (3, self.of_waiting_end)]
        if self.values and not (self.is_endless and word == "only"):
            kinds.append((3, self.of_value))
        if not self.is_endless:
            kinds.append((3, self.of_output))
        else:
            kinds.append((1, self.of_one_alone))
            if self.may_wait and word != "only":
                kinds.append((4, self.of_wait))
        return self.chooser.weighed(*kinds)()

    def of_end(self):
        error = self.chooser.pick(None, None, self.chooser.among(RUN_ERRORS))
        return self.chooser.pick(Topic("finished", "finished"), Topic("all-waiting", "all-waiting"), Topic(f"run-error {error}" if error else "run-error", "run-error", error))

    def process(self):
        """A process, an array of them or a type: its text, and the numbers."""
        number = self.chooser.number(0, len(self.processes) - 1)
        name, type = self.processes[number]
        array = name.split("[")[0]
        ways = [(str(number), (number,))]
        if number:
            ways += [(name, (number,)), (type, tuple(at for at, (_, other) in enumerate(self.processes) if other == type))]
        if "[" in name:
            ways.append((array, tuple(at for at, (other, _) in enumerate(self.processes) if other.split("[")[0] == array and "[" in other)))
        return self.chooser.among(ways)

    def of_waiting_end(self):
        who = [self.process() for _ in range(self.chooser.pick(1, 1, 2))]
        others = self.chooser.chance(0.5)
        return Topic(f"all-waiting {' '.join(text for text, _ in who)}{' ..' * others}", "all-waiting", who=tuple(group for _, group in who), others=others)

    def of_one_alone(self):
        end = self.chooser.among(ENDLESS)
        text, group = self.process()
        return self.chooser.pick(Topic(end, end), Topic(f"{end} {text}", end, who=(group,)))

    def of_wait(self):
        text, group = self.process()
        return self.chooser.pick(Topic("waiting", waiting=tuple(range(len(self.processes)))), Topic(f"waiting {text}", waiting=group))

    def of_value(self):
        value = self.chooser.among(self.values)
        return Topic(f"shown {value}", shown=value)

    def of_output(self):
        end = self.chooser.pick("finished", "finished", "all-waiting", "run-error")
        pattern = self.chooser.some(self.values, 3)
        for _ in range(self.chooser.pick(0, 1, 1)):
            pattern.insert(self.chooser.number(0, len(pattern)), "..")
        return Topic(f"{end} output {' '.join(pattern) or '-'}", end, output=tuple(pattern))


def by_rows(expectation, rows):
    """(verdict, the first row that settles it or None); a row is (word, kind, output as texts, who waits)."""
    def is_shown(row):
        _, kind, output, waiting = row
        return any(topic.is_of_end(kind, waiting, output) or topic.shows(output) for topic in expectation.topics)

    limited = [row for row in rows if row[1] in LIMITS]
    if expectation.word == "only":
        against = next((row for row in rows if row[1] not in LIMITS and not is_shown(row)), None)
        return ("fails", against) if against else ("not settled" if any(not is_shown(row) for row in limited) else "holds", None)
    found = next((row for row in rows if is_shown(row)), None)
    if expectation.word == "some":
        return ("holds", found) if found else ("not settled" if limited else "fails", None)
    return ("fails", found) if found else ("not settled" if limited else "holds", None)


def by_ends(expectation, ends, values, waiting, is_settled):
    """(verdict, the word that settles it or None) for schedules of any length: `ends` has for (kind, who waits) the first word."""
    def words():
        for (kind, who), word in ends.items():
            is_of = any(topic.is_of_end(kind, who, ()) for topic in expectation.topics)
            if is_of != (expectation.word == "only") and (expectation.word != "only" or kind != "step-limit"):
                yield word
        if expectation.word != "only":
            for value, word in values.items():
                if any(topic.shown == value for topic in expectation.topics):
                    yield word

    waits = expectation.word != "only" and any(set(topic.waiting or ()) & set(waiting or ()) for topic in expectation.topics)
    found = min(words(), key=lambda word: (len(word), word), default=None)
    is_shown = found is not None or waits
    if expectation.word == "some":
        return "holds" if is_shown else "fails" if is_settled else "not settled", None
    return ("fails", None if waits else found) if is_shown else ("holds" if is_settled else "not settled", None)

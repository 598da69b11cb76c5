"""Random questions to ask of a program."""
from random_programs import reading
from random_programs.comparing import Question
from random_programs.marks import Expectations
from random_programs.reading import report, schedules

MOST_STATES = 400


class Asker:
    """Asks of one source: each question with options of its own."""

    def __init__(self, chooser, meaning):
        self.chooser, self.meaning = chooser, meaning

    def questions(self, count):
        kinds = ((3, self.table), (3, self.merge), (4, self.ends), (4, self.waits), (4, self.at_once), (3, self.trace), (3, self.mark), (3, self.outcomes))
        return [self.chooser.weighed(*kinds) for _ in range(count)]

    def rules(self, has_gates=True):
        """How signals and gates work, and how many steps a stretch may have."""
        signals = self.chooser.weighed((4, "return"), (3, "continue"), (3, "wait"))
        gates = "any" if has_gates and signals != "wait" and self.chooser.chance(0.3) else "first"
        words = ["--signals", signals] if signals != "return" or self.chooser.chance(0.1) else []
        words += ["--gates", gates] if gates == "any" else []
        return words + self.steps()

    def steps(self):
        return ["--steps", str(self.chooser.pick(200, 200, 200, 100, 100, 30, 12, 4000, self.chooser.number(1, 40)))]

    def states(self):
        return ["--states", str(self.chooser.pick(MOST_STATES, MOST_STATES, MOST_STATES, self.chooser.number(1, 40)))]

    def choices(self, most):
        return ["--choices", str(self.chooser.number(0, most))]

    def table(self):
        words = self.rules() + self.choices(6) + (["--rows"] if self.chooser.chance(0.4) else [])
        if self.chooser.chance(0.3):
            words += ["--workers", str(self.chooser.pick(1, 2, 3, 16)), "--cut", str(self.chooser.number(0, 6))]
        return Question("table", tuple(words))

    def merge(self):
        return Question("merge", ("--merge", *self.rules(), *self.choices(14), *self.states()))

    def ends(self):
        return Question("ends", ("--ends", *self.rules(), *self.states()))

    def waits(self):
        return Question("waits", ("--ends", "--waits", *self.rules(has_gates=False), *self.states()))

    def at_once(self):
        return Question("at-once", ("--ends", "--at-once", *self.steps(), "--states", str(MOST_STATES)))

    def trace(self):
        """A schedule at random, at whose end a number may follow that can't be chosen."""
        words = self.rules()
        asked = reading.options.read(words)
        graph, word = self.meaning.graph(asked), []
        stretched = graph.after(None, None)
        for _ in range(self.chooser.number(0, 14)):
            if stretched.node is None:
                break
            word.append(self.chooser.among(graph.choices(stretched.node)))
            stretched = graph.after(stretched.node, word[-1])
        if self.chooser.chance(0.2) and len(word) < 18:
            word.append(self.chooser.number(0, 15))
        choices = self.chooser.pick(20, 20, 20, self.chooser.number(0, 12))
        return Question("trace", (*words, "--choices", str(choices), "--schedule", ".".join(map(str, word)) or "none"))

    def outcomes(self):
        """Now and then with too few states. The simplest schedules are searched among as many, so these are not always told."""
        states = ["--states", str(self.chooser.number(1, 30))] if self.chooser.chance(0.2) else []
        return Question("outcomes", (*self.rules(), *self.choices(7), *states))

    def mark(self):
        is_endless = self.chooser.chance(0.5)
        words = ["--ends", *self.rules(has_gates=False), "--states", str(MOST_STATES)] if is_endless else [*self.rules(), *self.choices(7)]
        values = self.values(words)
        made = Expectations(self.chooser, self.meaning.names()[0], values, is_endless, is_endless).make()
        return Question("mark", tuple(words), tuple(made))

    def values(self, words):
        """What is displayed within a few choices, and a number or two."""
        graph = self.meaning.graph(reading.options.read(words))
        table = schedules.layers(graph, 4, 10_000)
        shown = {report.value_text(value) for _, output in table for value in output}
        return sorted(shown) + ["1"]

"""Runs, tables and layers: docs/SEMANTICS.md, Runs, Tables; docs/REPORT.md, A report, A merged report, A trace."""
from components import AT_GATE, DELAYED, READY, State
from steps import StepFailed

MOST_SHOWN, MOST_ROWS, MOST_OUTCOMES = 1000, 50_000, 50_000
CHOICE, GATE_CHOICE, STEP_LIMIT = "choice", "gate choice", "step-limit"


class TooMany(Exception):
    """too many rows, too many states, too many outcomes"""


def stretch(machine, s, process, most_steps, after):
    """Runs: the steps up to the next choice, or to the end of the run. `process` goes on; None after a gate choice, where rules 3 to 5 apply.

    `after(process, event)` is called after each kernel call and process end. Answers what the run comes to, and who would go on.
    """
    steps, called = 0, process is None
    while True:
        if called and s.pending is not None:                                 # rule 2
            return GATE_CHOICE, None
        if called:
            ready = s.ready()
            if not ready:                                                    # rule 3
                return "all-waiting" if any(status[0] in (AT_GATE, DELAYED) for status in s.statuses) else "finished", None
            if len(ready) > 1:                                               # rule 4
                return CHOICE, None
            process = ready[0]
        if steps == most_steps:                                              # rule 5
            return STEP_LIMIT, process
        try:
            event = machine.step(s, process)
        except StepFailed as error:                                          # rule 1
            return str(error), process
        steps += 1
        called = event is not None
        if called:
            after(process, event)


def choices_in(frozen):
    """The numbers that may come next in a state at a due choice: those of the line of a pending monitor, else the ready processes."""
    _, _, statuses, _, _, lines, pending = frozen
    return sorted(lines[pending]) if pending is not None else [process for process, status in enumerate(statuses) if status is READY]


def choose(machine, s, number):
    """Makes the choice; answers who goes on then, if this is known."""
    if s.pending is None:
        return number
    machine.admit(s, s.pending, number)
    return None


class OutputFull(Exception):
    """A 1,001st value was to be displayed."""


def trace(machine, limits, word):
    """Runs, along one schedule. Answers the events with who is inside each monitor after it, and the last line without its outcome's text."""
    s, events = State(machine.components, machine.opening), []

    def after(process, event):
        if len(s.shown) > MOST_SHOWN:
            raise OutputFull
        events.append((process, event, [s.holder(monitor) for monitor in range(len(s.lines))]))

    used, process = 0, 0
    while True:
        try:
            kind, _ = stretch(machine, s, process, limits.steps, after)
        except OutputFull:
            return events, "ended", used, ("output-limit", s.shown[:MOST_SHOWN])
        if kind not in (CHOICE, GATE_CHOICE):
            return events, "ended", used, (kind, s.shown)
        numbers = choices_in(s.frozen())
        if used == limits.choices:
            return events, "ended", used, ("choice-limit", s.shown)
        if used == len(word):
            return events, "wants", used, numbers
        if word[used] not in numbers:
            return events, "not-ready", used, None
        process = choose(machine, s, word[used])
        if kind == GATE_CHOICE:
            after(word[used], "admit")
        used += 1


class Stretch:
    """What a choice leads to: what is displayed (`shown`), and the number of the next state at a due choice (`node`) or the `end` of the run."""


class Graph:
    """The states at a due choice, each once and without its output, numbered as they are found.

    What follows a choice depends on the state alone, and not on the schedule that led to it or on its output, but for the limit of
    1,000 values. So each stretch is followed once.
    """

    def __init__(self, machine, most_steps):
        self.machine, self.most_steps = machine, most_steps
        self.states, self.numbers, self.followed = [], {}, {}

    def after(self, node, number):
        """The stretch after a choice in a state; after (None, None) the first one."""
        if (node, number) not in self.followed:
            s = State(self.machine.components, self.machine.opening if node is None else self.states[node])
            self.followed[node, number] = self.stretch(s, 0 if node is None else choose(self.machine, s, number))
        return self.followed[node, number]

    def choices(self, node):
        return choices_in(self.states[node])

    def stretch(self, s, process):
        found = Stretch()
        kind, _ = stretch(self.machine, s, process, self.most_steps, lambda process, event: None)
        found.shown = tuple(s.shown)
        self.arrive(found, s, kind)
        return found

    def arrive(self, found, s, kind):
        """The stretch ends so, or in the state as it is now."""
        found.node, found.end = None, kind
        if kind in (CHOICE, GATE_CHOICE):
            frozen = s.frozen()
            if frozen not in self.numbers:               # (the state first: who stops here leaves no number without one)
                self.states.append(frozen)
                self.numbers[frozen] = len(self.states) - 1
            found.node, found.end = self.numbers[frozen], None


def with_output(output, found):
    """The output after a stretch, and how the run ends there: None if it goes on."""
    output += found.shown
    return (output[:MOST_SHOWN], "output-limit") if len(output) > MOST_SHOWN else (output, found.end)


def rows(graph, most_choices):
    """Tables: (schedule, kind, output) of each complete schedule, in dictionary order."""
    table = []

    def go_on(found, word, output):
        output, end = with_output(output, found)
        if end is None and len(word) == most_choices:
            end = "choice-limit"
        if end is None:
            for number in graph.choices(found.node):
                go_on(graph.after(found.node, number), word + (number,), output)
        elif len(table) == MOST_ROWS:
            raise TooMany("rows")
        else:
            table.append((word, end, output))

    go_on(graph.after(None, None), (), ())
    return table


def outcomes(table):
    """A report: of each outcome how many schedules end in it, and the first of them, in the order of first rows."""
    found = {}
    for word, kind, output in table:
        count, first = found.get((kind, output), (0, word))
        found[kind, output] = count + 1, first
    return found


def layers(graph, most_choices, most_states):
    """A merged report: the outcomes of the same table. A layer has for each state how many schedules lead to it, and the first."""
    found, layer = {}, {}

    def add(tally, key, count, word):
        before, first = tally.get(key, (0, word))
        tally[key] = before + count, min(first, word)

    def arrive(next_layer, stretched, output, count, word):
        output, end = with_output(output, stretched)
        add(next_layer if end is None else found, (stretched.node if end is None else end, output), count, word)

    arrive(layer, graph.after(None, None), (), 1, ())
    for depth in range(most_choices + 1):
        if len(layer) > most_states:
            raise TooMany("states")
        if depth == most_choices:
            for (_, output), (count, word) in layer.items():
                add(found, ("choice-limit", output), count, word)
        if len(found) > MOST_OUTCOMES:
            raise TooMany("outcomes")
        next_layer = {}
        for (node, output), (count, word) in layer.items() if depth < most_choices else ():
            for number in graph.choices(node):
                arrive(next_layer, graph.after(node, number), output, count, word + (number,))
        layer = next_layer
    return dict(sorted(found.items(), key=lambda item: item[1][1]))

"""What a source means by the plain interpreter in reference/, in this process: answers in text, and what it has no option for."""
import sys
from fractions import Fraction
from pathlib import Path

REFERENCE = Path(__file__).resolve().parent.parent.parent / "reference"
sys.path.insert(0, str(REFERENCE))
import options
import parser
import report
import rules
import scanner
import schedules
import states
from components import AT_GATE, DELAYED, State
from steps import Machine
from tree import Array, Queue, Refusal, System

DEPTH = 20_000
LIMITS = ("choice-limit", "step-limit", "output-limit")


class Watched:
    """Of each stretch besides: who waits at its end (`waiting`), and its `final` state if all wait."""

    def arrive(self, found, s, kind):
        super().arrive(found, s, kind)
        found.waiting = tuple(process for process, status in enumerate(s.statuses) if status[0] in (AT_GATE, DELAYED))
        found.final = State(s.components, s.frozen()) if found.end == "all-waiting" else None


class WatchedGraph(Watched, schedules.Graph):
    """And which process made the `last` kernel call; None if none was made."""

    def stretch(self, s, process):
        found, calls = schedules.Stretch(), []
        kind, _ = schedules.stretch(self.machine, s, process, self.most_steps, lambda process, event: calls.append((process, event)))
        found.shown, found.last = tuple(s.shown), calls[-1][0] if calls else None
        found.events = {event for _, event in calls}
        self.arrive(found, s, kind)
        return found


class WatchedEndlessGraph(Watched, states.EndlessGraph):
    pass


class Meaning:
    """An accepted program; `refused` has the line that is printed for another one."""

    def __init__(self, source):
        sys.setrecursionlimit(DEPTH)
        self.refused, self.program, self.machines, self.graphs = None, None, {}, {}
        try:
            self.program = rules.check(parser.parse(scanner.scan(source)))
        except Refusal as refusal:
            self.refused = str(refusal)
        self.lines = source.decode("latin-1").split("\n")

    def graph(self, asked):
        """The states of the program under these options; stretches that were followed for another question are known."""
        is_endless, waits = "--ends" in asked.flags, "--waits" in asked.flags
        key = is_endless, waits, asked.steps, asked.gates, asked.signals
        if key not in self.graphs:
            machine = Machine(self.program, asked.gates, asked.signals)
            self.graphs[key] = WatchedEndlessGraph(machine, asked.steps, waits) if is_endless else WatchedGraph(machine, asked.steps)
        return self.graphs[key]

    def answer(self, words):
        """The lines that are printed for these options, and the status."""
        asked = options.read(words)
        if self.refused:
            return [self.refused], 1
        graph = self.graph(asked)
        try:
            if asked.schedule is not None:
                return report.trace_text(*schedules.trace(graph.machine, asked, asked.schedule), asked.schedule), 0
            if "--merge" in asked.flags:
                return report.tally_text(schedules.layers(graph, asked.choices, asked.states)), 0
            if "--ends" not in asked.flags:
                return report.table_text(schedules.rows(graph, asked.choices), "--rows" in asked.flags), 0
        except schedules.TooMany as cause:
            return [f"too many {cause}"], 5
        found = states.ends(graph, asked.states)
        lines = report.ends_text(found)
        if "--waits" in asked.flags and found.choices is None:
            lines = lines + report.waits_text(states.Waits(graph, found).lines())
        return lines, 0 if found.choices is None else 5

    def fitting(self, words):
        """The same words with as many choices as layers fit into the limit of states, and how many these are; None where all fit."""
        asked = options.read(words)
        for choices in range(asked.choices, -1, -1):
            try:
                schedules.layers(self.graph(asked), choices, asked.states)
            except schedules.TooMany:
                continue
            at = words.index("--choices") + 1
            return [*words[:at], str(choices), *words[at + 1:]], None if choices == asked.choices else choices
        return words, None

    def waiting(self, words):
        """Who may wait for ever."""
        asked = options.read([*words, "--waits"])
        graph = self.graph(asked)
        return set(states.Waits(graph, states.ends(graph, asked.states)).lines())

    def found(self, words):
        asked = options.read(words)
        return states.ends(self.graph(asked), asked.states)

    def waiting_ends(self, words):
        """Of schedules of any length: (end, who waits there) with the first word of each; None if there are too many states."""
        asked = options.read(words)
        graph = self.graph(asked)
        found = states.ends(graph, asked.states)
        if found.choices is not None:
            return None
        ends, values = {}, {}
        words_of = {None: ()} | found.words
        for node, word in sorted(words_of.items(), key=lambda it: (len(it[1]), it[1], it[0] is not None)):
            for number in [None] if node is None else graph.choices(node):
                stretched, after = graph.after(node, number), word + ((number,) if node is not None else ())
                for value in stretched.shown:
                    values[value] = min(values.get(value, after), after, key=lambda it: (len(it), it))
                if stretched.end is not None:
                    key = stretched.end, stretched.waiting if stretched.end == "all-waiting" else ()
                    ends[key] = min(ends.get(key, after), after, key=lambda it: (len(it), it))
        return ends, values

    def rows(self, words, most):
        """(word, kind, output, who waits, switches, the final state) of each schedule, in order; None if there are more than so many."""
        asked = options.read(words)
        graph, table = self.graph(asked), []

        def go_on(stretched, word, output, switches, last):
            output, end = schedules.with_output(output, stretched)
            last = last if stretched.last is None else stretched.last
            if end is None and len(word) == asked.choices:
                end = "choice-limit"
            if end is not None:
                table.append((word, end, output, stretched.waiting if end == "all-waiting" else (), switches, stretched.final))
                return len(table) <= most
            numbers = graph.choices(stretched.node)
            may_switch = graph.states[stretched.node][6] is None and last in numbers
            return all(go_on(graph.after(stretched.node, number), word + (number,), output, switches + (may_switch and number != last), last) for number in numbers)

        return table if go_on(graph.after(None, None), (), (), 0, 0) else None

    def follow(self, words, word):
        """The stretches of a schedule, in order; None where a number can't be chosen or the run has ended."""
        graph = self.graph(options.read(words))
        found = [graph.after(None, None)]
        for number in word:
            if found[-1].node is None or number not in graph.choices(found[-1].node):
                return None
            found.append(graph.after(found[-1].node, number))
        return found

    # -- names

    def names(self):
        """(the name, its type) of each process, and of each monitor."""
        self.components, self.program_names = ["program"], {"process": [("program", "")], "monitor": []}
        self.add_names(self.program, "")
        return self.program_names["process"], self.program_names["monitor"]

    def component(self, number):
        """The name of a component: the names are found in the order of the numbers."""
        self.names()
        return self.components[number]

    def add_names(self, system, before):
        for variable in system.variables:
            is_array = isinstance(variable.type, Array)
            of = variable.type.element if is_array else variable.type
            if not isinstance(of, System):
                continue
            index = variable.type.index if is_array else None
            for number in range(index.low, index.high + 1) if is_array else [None]:
                name = before + variable.name + ("" if number is None else f"[{index_text(index, number)}]")
                self.components.append(name)
                if of.kind in self.program_names:
                    self.program_names[of.kind].append((name, of.name.text))
                self.add_names(of, name + ".")


def index_text(index, number):
    return report.value_text((index.base, number))


def final(state):
    """Who waits at the end of a run, and where, as JSON tells it."""
    told = []
    for process, status in enumerate(state.statuses):
        if status[0] not in (AT_GATE, DELAYED):
            continue
        inside = [monitor for monitor in range(len(state.lines)) if state.is_inside(process, monitor)]
        one = {"process": process, "monitor": status[1], "is": "gate" if status[0] == AT_GATE else "delayed", "inside": inside}
        if status[0] == DELAYED:
            one["queue"] = queue_of(state, process, status[1])
        told.append(one)
    return told


def queue_of(state, process, monitor):
    """The name of the queue in which a process waits."""
    component = state.components.all[state.components.monitors[monitor]]
    for variable in component.system.variables:
        value = state.variables[component.number][state.components.slots[variable]]
        if isinstance(variable.type, Queue) and value == process and value is not None:
            return variable.name
        if isinstance(variable.type, Array) and isinstance(variable.type.element, Queue) and process in value:
            return f"{variable.name}[{index_text(variable.type.index, variable.type.index.low + value.index(process))}]"
    return None


def share_text(count, total):
    """A part in tenths of a percent, the middle upwards."""
    tenths = (Fraction(count, total) * 1000 + Fraction(1, 2)).__floor__()
    if count == total:
        return "100 %"
    if count * 1000 > total * 999:
        return "> 99.9 %"
    return "< 0.1 %" if count * 1000 < total else f"{tenths // 10}.{tenths % 10} %"

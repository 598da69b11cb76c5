"""Components, processes, and the states of a program: docs/SEMANTICS.md, Components and processes."""
from dataclasses import dataclass
from typing import Optional
from tree import Array, System
from values import least, with_part

UNSTARTED, READY, ENDED = "unstarted", "ready", "ended"          # of a process; else (AT_GATE, monitor) or (DELAYED, monitor)
AT_GATE, DELAYED = "at the gate", "delayed"
UNINITIALISED, INITIALISING, INITIALISED = "uninitialised", "initialising", "initialised"    # of a class or monitor


@dataclass(eq=False)
class Component:
    number: int
    system: System
    order: Optional[int]             # of a process: its number; of a monitor: its number


class Components:
    """All components in the order of their declarations, each followed by those that it contains; the program is the first."""

    def __init__(self, program):
        self.all, self.processes, self.monitors, self.first = [], [], [], []
        self.slots = {}              # of each permanent variable and parameter
        self.add(program)

    def add(self, system):
        """Adds a component with those that it contains, and answers its number."""
        number = len(self.all)
        same = {"program": self.processes, "process": self.processes, "monitor": self.monitors}.get(system.kind)
        self.all.append(Component(number, system, None if same is None else len(same)))
        if same is not None:
            same.append(number)
        self.first.append(())
        self.number_variables(system)
        self.first[number] = tuple([self.first_value(variable) for variable in system.parameters + system.variables])
        return number

    def number_variables(self, system):
        """Also of a type of which there is no component, but a parameter."""
        self.slots.update({variable: slot for slot, variable in enumerate(system.parameters + system.variables)})

    def first_value(self, variable):
        """A variable of a system type is the number of its component, an array of them the numbers from the least index on."""
        if variable.parameter:
            return least(variable.type)
        if isinstance(variable.type, System):
            return self.add(variable.type)
        if isinstance(variable.type, Array) and isinstance(variable.type.element, System):
            return tuple([self.add(variable.type.element) for _ in range(variable.type.index.low, variable.type.index.high + 1)])
        return least(variable.type)


class State:
    """A state, which steps change in place. `frozen` is all that the next steps can depend on; the output is not part of it."""

    def __init__(self, components, frozen):
        self.components = components
        variables, phases, statuses, items, frames, lines, self.pending = frozen
        self.variables = [list(values) for values in variables]               # of each component
        self.phases = list(phases)                                            # of each component
        self.statuses = list(statuses)                                        # of each process
        self.items = [list(done_last_first) for done_last_first in items]     # of each process; the next item is the last of the list
        self.frames = [[list(frame) for frame in open_calls] for open_calls in frames]
        self.lines = list(lines)                                              # of each monitor
        self.shown = []                                                       # what was displayed since then

    def frozen(self):
        return (tuple(map(tuple, self.variables)), tuple(self.phases), tuple(self.statuses), tuple(map(tuple, self.items)),
                tuple([tuple(map(tuple, open_calls)) for open_calls in self.frames]), tuple(self.lines), self.pending)

    def read(self, place):
        whose, number, slot, path = place
        value = (self.frames[self.process][number] if whose == "frame" else self.variables[number])[slot]
        for at in path:
            value = value[at]
        return value

    def write(self, place, value):
        whose, number, slot, path = place
        variables = self.frames[self.process][number] if whose == "frame" else self.variables[number]
        variables[slot] = with_part(variables[slot], path, value)

    def look_at(self, process):
        """From now on `frame` and `own` are what this process sees."""
        self.process = process
        self.frame = self.frames[process][-1]
        self.own = self.variables[self.frame[0]]

    def ready(self):
        return [process for process, status in enumerate(self.statuses) if status is READY]

    def open_entries(self, process):
        """The monitors of its open entry calls."""
        return [self.components.all[frame[0]].order for frame in self.frames[process] if frame[1].is_monitors_entry]

    def is_inside(self, process, monitor):
        """It has an open entry call of it and is neither at its gate nor delayed in it."""
        return monitor in self.open_entries(process) and self.statuses[process] not in ((AT_GATE, monitor), (DELAYED, monitor))

    def holder(self, monitor):
        """The process that is inside, or None."""
        return next((process for process in range(len(self.statuses)) if self.is_inside(process, monitor)), None)

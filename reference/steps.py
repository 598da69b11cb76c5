"""Steps and kernel calls: docs/SEMANTICS.md, Steps, Annotations, Kernel calls, Who goes on after a signal.

Each item that a process has still to do is an Item, or a Successor. A step takes the next one off the list and acts; it answers the
kernel call that it was, "end", or None for a local step.
"""
from typing import Callable, NamedTuple
import tree
from components import AT_GATE, DELAYED, ENDED, INITIALISED, INITIALISING, READY, UNINITIALISED, UNSTARTED, Components
from values import FRAME_HEAD, Expressions, RunError, checked, least


class StepFailed(Exception):
    """A run error with its process and its line, as reports tell it."""


class Item:
    """Equal to itself alone: two items are one if they stand at one place of the source. `line` is that of a run error in it."""

    def __init__(self, line, act, is_return=False):
        self.line, self.act, self.is_return = line, act, is_return


class Successor(NamedTuple):
    """Steps: the *successor* of i, in a `for` up to b."""
    line: int
    go_on: Callable
    step: int
    i: int
    b: int
    is_return = False

    def act(self, s):
        if self.i != self.b:
            self.go_on(s, self.i + self.step, self.b)


def push(s, items):
    """The items are done next, in their order."""
    s.items[s.process] += reversed(items)


class Machine:
    """The kernel calls of one program, under a rule of the gates and a discipline; and its bodies."""

    def __init__(self, program, gates, signals):
        self.components, self.gates, self.signals = Components(program), gates, signals
        self.bodies = {}
        self.returns = {}            # of each body and place of a result: it does not matter from which call it returns
        self.opening = self.opening_state()

    def body(self, system, routine=None, is_check=False):
        """The body of a routine; else the check of the invariants, or the initial statement of the system."""
        key = system, routine, is_check
        if key not in self.bodies:
            self.components.number_variables(system)
            self.bodies[key] = Body(self, *key)
        return self.bodies[key]

    def opening_state(self):
        """Runs: process 0 is ready. Steps: each process has the items of its initial statement, and then *end*."""
        all, processes = self.components.all, self.components.processes
        bodies = [self.body(all[number].system) for number in processes]
        end = Item(0, self.end)
        return (tuple(self.components.first), (UNINITIALISED,) * len(all), (READY,) + (UNSTARTED,) * (len(processes) - 1),
                tuple([(end, *reversed(body.items)) for body in bodies]),
                tuple([((number, body, *body.locals),) for number, body in zip(processes, bodies)]),
                ((),) * len(self.components.monitors), None)

    def step(self, s, process):
        """Steps: takes one item. A run error has the line of the item."""
        s.look_at(process)
        item = s.items[process].pop()
        try:
            return item.act(s)
        except RunError as error:
            raise StepFailed(f"run-error {error} process {process} line {item.line}") from None

    def end(self, s):
        """Steps: *end*."""
        s.statuses[s.process] = ENDED
        return "end"

    def enter(self, s, monitor, frame):
        """Kernel calls: if nobody is inside, the caller goes in; else it goes to the end of the line."""
        if s.holder(monitor) is not None:
            s.lines[monitor] += (s.process,)
            s.statuses[s.process] = (AT_GATE, monitor)
        s.frames[s.process].append(frame)
        return "enter"

    def admit(self, s, monitor, process):
        """Kernel calls: an admission lets one process of the line in; then nothing is pending."""
        s.lines[monitor] = tuple([other for other in s.lines[monitor] if other != process])
        s.statuses[process], s.pending = READY, None

    def let_in(self, s, monitor):
        """Kernel calls: the next of the line is let in."""
        if len(s.lines[monitor]) > 1 and self.gates == "any":
            s.pending = monitor
        elif s.lines[monitor]:
            self.admit(s, monitor, s.lines[monitor][0])

    def delay(self, s, place, monitor):
        """Kernel calls: delay."""
        if s.read(place) is not None:
            raise RunError("queue-in-use")
        s.write(place, s.process)
        s.statuses[s.process] = (DELAYED, monitor)
        self.let_in(s, monitor)
        return "delay"

    def signal(self, s, place, monitor):
        """Who goes on after a signal."""
        woken = s.read(place)
        s.write(place, None)
        if self.signals == "return":
            while not s.items[s.process].pop().is_return:
                pass
            s.frames[s.process].pop()
        if woken is None:
            if self.signals == "return":
                self.let_in(s, monitor)
        elif self.signals == "continue":
            s.lines[monitor] += (woken,)
            s.statuses[woken] = (AT_GATE, monitor)
        else:
            s.statuses[woken] = READY
            if self.signals == "wait":
                s.lines[monitor] = (s.process,) + s.lines[monitor]
                s.statuses[s.process] = (AT_GATE, monitor)
        return "continue"


class Body(Expressions):
    """The items of a body, and what the frame of a call of it has behind the arguments."""

    def __init__(self, machine, system, routine, is_check):
        super().__init__(machine.components.slots)
        self.machine, self.components, self.system, self.routine = machine, machine.components, system, routine
        self.is_monitors_entry = system.kind == "monitor" and routine is not None and routine.entry is not None
        own = routine.parameters + routine.variables + [routine.result] * routine.function if routine else []
        self.slots.update({variable: slot for slot, variable in enumerate(own, FRAME_HEAD)})
        self.parameters = len(routine.parameters) if routine else 0
        self.locals = [least(variable.type) for variable in own[self.parameters:]]       # results of calls are added to them
        if is_check:                                                                     # Annotations
            self.items = [self.assertion(one, "invariant") for one in system.invariants] + [self.empty(system)]
        else:
            self.items = self.items_of_all(routine.body if routine else system.body)
            if system.invariants and (not routine or routine.entry):                     # places 1 and 2
                self.items.append(self.check())

    def items_of_all(self, statements):
        return [item for statement in statements for item in self.items_of(statement)]

    def items_of(self, statement):
        """Steps: the items of a statement. An assertion is one before it; an `init` is replaced by its starts."""
        if isinstance(statement, tree.Assert):
            return [self.assertion(statement.condition, "assertion"), *self.items_of(statement.statement)]
        if isinstance(statement, tree.Init):
            return [item for start in statement.starts for item in self.with_calls(self.start, start)]
        return self.with_calls(getattr(self, KINDS[type(statement)]), statement)

    def with_calls(self, make, node):
        """Values, calls first: the function calls in it, in reading order, the innermost first; then the item that `make` makes of it."""
        outer, self.calls = self.calls, []
        item = make(node)
        items, self.calls = [*self.calls, item], outer
        return items

    def function_call(self, use):
        """Values, calls first: each result has a place of its own."""
        slot = FRAME_HEAD + self.parameters + len(self.locals)
        self.locals.append(0)           # until the call is made, even where 0 is no value of its type
        self.calls.append(self.call(use, slot))
        return slot

    # Steps: the table.

    def empty(self, statement):
        return Item(statement.line, lambda s: None)

    def assign(self, statement):
        assign = self.assignment(statement.target)               # its calls come first, its place after the right side
        value = self.value(statement.value)
        return Item(statement.line, lambda s: assign(s, value(s)))

    def assignment(self, target):
        """The place, then the check of the range, then it is stored."""
        place = self.place(target)

        def assign(s, value):
            at = place(s)
            s.write(at, checked(target.type, value))
        return assign

    def begin(self, statement):
        body = self.items_of_all(statement.body)
        return Item(statement.line, lambda s: push(s, body))

    def if_then(self, statement):
        value = self.value(statement.condition)
        then, otherwise = self.items_of(statement.then), self.items_of(statement.otherwise) if statement.otherwise else []
        return Item(statement.line, lambda s: push(s, then if value(s) else otherwise))

    def case(self, statement):
        value = self.value(statement.selector)
        arms = {label.value: items for arm in statement.arms for items in [self.items_of(arm.statement)] for label in arm.labels}

        def act(s):
            chosen = value(s)
            if chosen not in arms:
                raise RunError("no-case")
            push(s, arms[chosen])
        return Item(statement.line, act)

    def assertion(self, condition, error):
        value = self.value(condition)

        def act(s):
            if not value(s):
                raise RunError(error)
        return Item(condition.line, act)

    def while_do(self, statement):
        value, calls, body = self.value(statement.condition), self.calls, self.items_of(statement.body)
        test = Item(statement.line, lambda s: push(s, [*body, *calls, test]) if value(s) else None)
        return test

    def repeat(self, statement):
        body, value, calls = self.items_of_all(statement.body), self.value(statement.condition), self.calls
        self.calls = []                                          # they come before *until*, and not before the `repeat`
        until = Item(statement.condition.line, lambda s: None if value(s) else push(s, [*body, *calls, until]))
        return Item(statement.line, lambda s: push(s, [*body, *calls, until]))

    def for_do(self, statement):
        assign = self.assignment(statement.variable)
        first, last, step = self.value(statement.first), self.value(statement.last), -1 if statement.down else 1
        body = self.items_of(statement.body)

        def go_on(s, i, b):
            assign(s, i)
            push(s, [*body, Successor(statement.line, go_on, step, i, b)])

        def act(s):
            a, b = first(s), last(s)
            if a * step <= b * step:
                go_on(s, a, b)
        return Item(statement.line, act)

    def cycle(self, statement):
        body = self.items_of_all(statement.body)
        itself = Item(statement.line, lambda s: push(s, [*body, itself]))
        return itself

    # Calls and starts.

    def arguments(self, use, parameters):
        """Assignments and calls: in order; of a parameter without `var` the checked value, of a `var` parameter the argument's place."""
        found = [self.place(argument) if parameter.by_reference else self.value(argument) for parameter, argument in zip(parameters, use.args)]
        return lambda s: [one(s) if parameter.by_reference else checked(parameter.type, one(s)) for parameter, one in zip(parameters, found)]

    def call(self, use, result=None):
        """The component's place, the arguments, then whether it is initialised. It becomes the body's statements and *return*."""
        component = self.variable(use.component) if use.component else lambda s: s.frame[0]
        arguments, body = self.arguments(use, use.means.parameters), self.machine.body(use.means.system, use.means)
        back = self.return_of(body, result)

        def act(s):
            number = component(s)
            values = arguments(s)
            if use.component and s.phases[number] is not INITIALISED:
                raise RunError("not-init")
            push(s, [*body.items, back])
            frame = [number, body, *values, *body.locals]
            if body.is_monitors_entry:
                return self.machine.enter(s, self.components.all[number].order, frame)
            s.frames[s.process].append(frame)
        return Item(use.line, act)

    def return_of(self, body, result):
        """*return*: the frame is given up, a function's result put in its place; of a monitor's entry: leave."""
        if (body, result) in self.machine.returns:
            return self.machine.returns[body, result]
        own_result = FRAME_HEAD + len(body.routine.parameters + body.routine.variables) if result else None

        def act(s):
            frame = s.frames[s.process].pop()
            if result:
                s.frames[s.process][-1][result] = frame[own_result]
            if body.is_monitors_entry:
                self.machine.let_in(s, self.components.all[frame[0]].order)
                return "leave"
        self.machine.returns[body, result] = Item(0, act, is_return=True)
        return self.machine.returns[body, result]

    def check(self):
        """Annotations: a call of the procedure that is made of the invariants."""
        body = self.machine.body(self.system, is_check=True)
        back = self.return_of(body, None)

        def act(s):
            push(s, [*body.items, back])
            s.frames[s.process].append([s.frame[0], body])
        return Item(0, act)

    def start(self, use):
        """The component's place, the parameters, then whether it is uninitialised. A class or monitor: its initial statement, *init end*."""
        component, arguments, body = self.variable(use), self.arguments(use, use.system.parameters), self.machine.body(use.system)
        is_process, finish = use.system.kind == "process", Item(0, self.finish)

        def act(s):
            number = component(s)
            values = arguments(s)
            process = self.components.all[number].order
            if (s.statuses[process] is not UNSTARTED) if is_process else (s.phases[number] is not UNINITIALISED):
                raise RunError("init-twice")
            s.variables[number][:len(values)] = values
            if is_process:
                s.statuses[process] = READY
                return "init"
            s.phases[number] = INITIALISING
            push(s, [*body.items, finish])
            s.frames[s.process].append([number, body, *body.locals])
        return Item(use.line, act)

    @staticmethod
    def finish(s):
        """*init end*."""
        s.phases[s.frames[s.process].pop()[0]] = INITIALISED

    def call_statement(self, statement):
        """A procedure; or a kernel call. Annotations, place 3: before `delay` and `continue`, after their calls, comes a check."""
        use = statement.use
        if isinstance(use.means, tree.Routine):
            return self.call(use)
        if use.means.name == "display":
            return Item(statement.line, self.display(use.args[0]))
        place, kernel_call = self.place(use.args[0]), {"delay": self.machine.delay, "continue": self.machine.signal}[use.means.name]
        if self.system.invariants:
            self.calls.append(self.check())
        return Item(statement.line, lambda s: kernel_call(s, place(s), self.components.all[s.frame[0]].order))

    def display(self, expression):
        value, base = self.value(expression), expression.type.base

        def act(s):
            s.shown.append((base, value(s)))
            return "display"
        return act


KINDS = {tree.Empty: "empty", tree.Assign: "assign", tree.Begin: "begin", tree.If: "if_then", tree.Case: "case", tree.While: "while_do",
         tree.Repeat: "repeat", tree.For: "for_do", tree.Cycle: "cycle", tree.Call: "call_statement"}

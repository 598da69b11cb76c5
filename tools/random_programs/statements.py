"""Random statements at one point of a program."""
import re

from random_programs.kinds import BOOLEAN, INTEGER, Array, Ordinal, Record, SetOf


def is_ordinal(type):
    return isinstance(type, Ordinal)


class Statements:
    def __init__(self, chooser, expressions):
        self.chooser, self.expressions = chooser, expressions
        self.share_of_assertions = chooser.pick(0, 0, 0.03, 0.1)

    def block(self, here, most, depth=2):
        return "; ".join(self.statement(here, depth) for _ in range(self.chooser.number(1, most)))

    def statement(self, here, depth):
        asserted = f"{self.assertion(here)} " if self.chooser.chance(self.share_of_assertions) else ""
        calls = 9 if here.kind in ("process", "program") and here.part == "initial" else 3
        kinds = [(5, self.assignment), (calls, self.call), (1, self.display), (0.3, self.empty)]
        if here.may_delay():
            kinds.append((3, self.delay))
        if here.may_continue():
            kinds.append((4, self.continuing))
        if depth > 0:
            kinds += [(2, self.branch), (0.8, self.case), (0.8, self.counting), (0.4, self.loop), (0.4, self.repeating), (0.4, self.compound)]
        for _ in range(4):
            made = self.chooser.weighed(*kinds)(here, depth)
            if made is not None:
                return asserted + made
        return asserted

    def plain(self, here, depth):
        """A statement as the part of another one: a compound one as often as not."""
        return f"begin {self.block(here, 2, depth - 1)} end" if self.chooser.chance(0.5) else self.statement(here, depth - 1)

    def assertion(self, here):
        self.chooser.use("assertion")
        return f'"(* assert {self.claim(here.quietly())} *)"'

    def claim(self, here):
        """Something that is most often true."""
        ranges = [it for it in self.expressions.all_places(here) if is_ordinal(it.type) and it.type.base == "integer"]
        if not ranges or self.chooser.chance(0.15):
            return self.expressions.value(here, BOOLEAN, 1)
        place = self.chooser.among(ranges)
        low = place.type.low if place.type.low > -32768 else -30
        return self.chooser.pick(f"{place.text} >= {low}", f"({place.text} < 90) or {self.expressions.factor(here, BOOLEAN, 1)}", f"not ({place.text} = 77)")

    # -- simple statements

    def empty(self, here, depth):
        self.chooser.use("empty statement")
        return ""

    def assignment(self, here, depth):
        targets = self.expressions.assignable(here)
        if here.part == "function" and here.result and (not targets or self.chooser.chance(0.3)):
            return self.result(here)
        if not targets:
            return None
        target = self.chooser.among(targets)
        if isinstance(target.type, (Array, Record)):
            self.chooser.use("assignment of a whole")
        elif isinstance(target.type, SetOf):
            self.chooser.use("assignment of a set")
        value = self.expressions.fitting(here, target.type)
        return value and f"{self.with_a_call(here, target.text)} := {value}"

    def with_a_call(self, here, target):
        """The target with a function call in its index, now and then: it comes before those of the value."""
        call = self.expressions.by_call(here, INTEGER, 1) if re.search(r"\[[01]\]", target) and self.chooser.chance(0.4) else None
        if call is None or not here.sees("abs"):
            return target
        self.chooser.use("function call in a target")
        return re.sub(r"\[([01])\]", lambda found: f"[{found[1]} + abs({call}) mod 2]", target, count=1)

    def result(self, here):
        self.chooser.use("result")
        name, type = here.result
        return f"{name} := {self.expressions.fitting(here, type)}"

    def call(self, here, depth):
        calls = [it for it in self.expressions.callable(here) if not it[1].result]
        components = [it for it in calls if it[0]]
        if not calls:
            return None
        before, routine = self.chooser.among(components if components and self.chooser.chance(0.8) else calls)
        self.chooser.use("entry call" if before else "call of a local procedure")
        return self.expressions.call(here, before, routine, 2)

    def display(self, here, depth):
        if not here.sees("display"):
            return None
        if here.counters and self.chooser.chance(0.02):
            return self.much(here)
        types = [it.type for it in here.places if is_ordinal(it.type)] + [INTEGER, BOOLEAN]
        self.chooser.use("display")
        return f"display({self.expressions.value(here, self.chooser.among(types), 2)})"

    def much(self, here):
        """So much is displayed that a run may end by it."""
        counter = here.counters[0].text
        self.chooser.use("much output")
        return f"for {counter} := 1 to {self.chooser.pick(350, 999, 1000, 1001)} do display({self.chooser.pick('1', counter)})"

    def delay(self, here, depth):
        """A wait, most often under a condition, and often not where somebody waits already."""
        queue = self.expressions.queue(here)
        kind = self.chooser.weighed((2, "always"), (4, "if free"), (4, "if"), (3, "if both"), (1.5, "while"))
        if not here.sees("empty") and "f" in kind:
            kind = "while"
        test = f"empty({queue})" if kind == "if free" else self.expressions.relation(here, 1)
        if kind == "if both":
            test = f"empty({queue}) and ({test})"
        self.chooser.use("delay")
        return f"delay({queue})" if kind == "always" else f"{'while' if kind == 'while' else 'if'} {test} {'do' if kind == 'while' else 'then'} delay({queue})"

    def continuing(self, here, depth):
        self.chooser.use("continue")
        signal = f"continue({self.expressions.queue(here)})"
        return signal if self.chooser.chance(0.6) else f"if {self.expressions.relation(here, 1)} then {signal}"

    # -- statements with others in them

    def compound(self, here, depth):
        self.chooser.use("begin")
        return f"begin {self.block(here, 2, depth - 1)} end"

    def branch(self, here, depth):
        if self.chooser.chance(0.5):
            self.chooser.use("if")
            return f"if {self.expressions.relation(here, 2)} then {self.plain(here, depth)}"
        self.chooser.use("if with else")
        return f"if {self.expressions.value(here, BOOLEAN, 2)} then begin {self.block(here, 1, depth - 1)} end else {self.plain(here, depth)}"

    def case(self, here, depth):
        """The labels are most often all values that the selector may have."""
        selectors = [it for it in self.expressions.readable(here, self.chooser.among([it.type for it in here.places if is_ordinal(it.type)] or [INTEGER]))]
        if not selectors:
            return None
        self.chooser.use("case")
        place = self.chooser.among(selectors)
        low = place.type.low if place.type.low > -32768 else 0
        numbers = list(range(low, min(place.type.high, low + 4) + 1))
        if self.chooser.chance(0.15):
            numbers.pop()
        labels = [self.label(place.type, number) for number in numbers or [low]]
        if not all(here.sees(label.lstrip("-")) for label in labels):
            return None
        cut = self.chooser.number(1, len(labels))
        arms = [f"{', '.join(some)}: {self.plain(here, depth)}" for some in (labels[:cut], labels[cut:]) if some]
        return f"case {place.text} of {'; '.join(arms)}{self.chooser.pick(';', '')} end"

    def label(self, type, number):
        return str(number) if type.base == "integer" else self.expressions.literal(type, number)

    def counting(self, here, depth):
        if not here.counters:
            return None
        counter, *others = here.counters
        inner = type(here)(**{**vars(here), "counters": others, "places": [*here.places, type(counter)(counter.text, counter.type, False)]})
        self.chooser.use("for")
        low, high = (self.expressions.literal(counter.type, it) for it in (1, self.chooser.pick(0, 1, 2, 2)))
        word, first, last = self.chooser.pick(("to", low, high), ("to", low, high), ("downto", high, low))
        if self.chooser.chance(0.15):
            last = self.expressions.wrapped(here, INTEGER, 1)
        return f"for {counter.text} := {first} {word} {last} do {self.plain(inner, depth)}"

    def loop(self, here, depth):
        last = self.chooser.pick(1, 2, 2)
        return self.counted_loop(here, depth, "while", lambda counter, body: f"{counter} := 0; while {counter} < {last} do begin {body}; {counter} := {counter} + 1 end")

    def repeating(self, here, depth):
        last = self.chooser.pick(1, 2, 2)
        next_one = "succ(COUNTER)" if here.sees("succ") else "COUNTER + 1"
        return self.counted_loop(here, depth, "repeat", lambda counter, body: f"{counter} := 0; repeat {body}; {counter} := {next_one.replace('COUNTER', counter)} "
                                                                             f"until {counter} >= {last}")

    def counted_loop(self, here, depth, kind, text):
        """A loop that ends; now and then one that may go on for ever."""
        if self.chooser.chance(0.05):
            self.chooser.use(f"{kind} without a counter")
            test, body = self.expressions.relation(here, 1), self.plain(here, depth)
            return f"while {test} do {body}" if kind == "while" else f"repeat {body} until {test}"
        if not here.counters:
            return None
        counter, *others = here.counters
        inner = type(here)(**{**vars(here), "counters": others})
        self.chooser.use(kind)
        return f"begin {text(counter.text, self.plain(inner, depth))} end"

    def endless(self, here, most):
        """A cycle, most often with a call of a component in it."""
        self.chooser.use("cycle")
        call = self.call(here, 1) if self.chooser.chance(0.9) else None
        return f"cycle {call + '; ' if call else ''}{self.block(here, most)} end"

    def entry(self, here):
        """The body of an entry procedure of a monitor with queues: who comes may have to wait, and wakes another one at the end."""
        body = self.block(here, 2)
        if self.chooser.chance(0.5):
            body = f"{self.delay(here, 1)}; {body}"
        return f"{body}; {self.continuing(here, 1)}" if self.chooser.chance(0.6) else body

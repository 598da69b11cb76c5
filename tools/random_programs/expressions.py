"""Random expressions of a wanted type."""
from random_programs.kinds import BOOLEAN, CHAR, INTEGER, Array, Ordinal, Record, SetOf, are_same

MOST_PLACES = 12
RELATIONS = ("=", "<>", "<", ">", "<=", ">=")


class Expressions:
    """`constants` are (name, base), `enumerations` the constants of each, in order."""

    def __init__(self, chooser):
        self.chooser = chooser
        self.constants, self.enumerations = [], {}

    # -- constants

    def literal(self, type, number):
        """A constant that is a value of an ordinal type."""
        if type.base == "integer":
            return str(number) if number >= 0 else f"(-{-number})"
        if type.base == "char":
            is_shown = 32 <= number <= 126 and number != 39 and number != 34
            return f"'{chr(number)}'" if is_shown and self.chooser.chance(0.8) else f"'(:{number}:)'"
        return ("false", "true")[number] if type.base == "boolean" else self.enumerations[type.base][number]

    def seen_literal(self, here, type):
        for _ in range(4):
            number = self.chooser.number(type.low, min(type.high, type.low + 3)) if type.base != "integer" or type.low > 0 else self.chooser.number(max(type.low, 0), min(type.high, 3))
            text = self.literal(type, number)
            if here.sees(text):
                return text
        return {"integer": "0", "char": "'a'", "boolean": "(1 < 2)"}.get(type.base) or self.odd(here, type)

    def odd(self, here, type):
        """A value of an enumeration whose constants are hidden: some variable of it, or a comparison's error is risked."""
        places = [it.text for it in self.readable(here, type)]
        return self.chooser.among(places or [name for name in self.enumerations[type.base] if here.sees(name)] or [self.enumerations[type.base][0]])

    # -- variables

    def parts(self, here, place, depth=2):
        """A place, its elements and its fields."""
        yield place
        if isinstance(place.type, Array) and depth:
            self.chooser.use("index")
            for index in dict.fromkeys(self.index(here, place.type.index) for _ in range(2)):
                yield from self.parts(here, type(place)(f"{place.text}[{index}]", place.type.element, place.is_open), depth - 1)
        if isinstance(place.type, Record) and depth:
            self.chooser.use("field")
            for name, of in place.type.fields:
                yield from self.parts(here, type(place)(f"{place.text}.{name}", of, place.is_open), depth - 1)

    def index(self, here, wanted):
        simple = [it.text for it in here.places + here.counters if isinstance(it.type, Ordinal) and it.type.base == wanted.base]
        if simple and self.chooser.chance(0.3):
            return self.chooser.among(simple)
        low = max(wanted.low, 0) if wanted.base == "integer" else wanted.low
        texts = [self.literal(wanted, number) for number in range(low, min(wanted.high, low + 4) + 1)]
        return self.chooser.among([text for text in texts if here.sees(text)] or texts)

    def all_places(self, here):
        return [part for place in self.chooser.some(here.places, MOST_PLACES) + here.counters for part in self.parts(here, place)]

    def readable(self, here, wanted):
        if isinstance(wanted, Ordinal):
            return [it for it in self.all_places(here) if isinstance(it.type, Ordinal) and it.type.base == wanted.base]
        if isinstance(wanted, SetOf):
            return [it for it in self.all_places(here) if isinstance(it.type, SetOf) and it.type.of.base == wanted.of.base]
        return [it for it in self.all_places(here) if it.type == wanted]

    def assignable(self, here, test=lambda type: True):
        counters = {it.text for it in here.counters}
        return [it for it in self.all_places(here) if it.is_open and it.text not in counters and test(it.type)]

    # -- values

    def value(self, here, wanted, depth=2):
        """Any expression whose type agrees with the wanted one."""
        if isinstance(wanted, SetOf):
            return self.set_sum(here, wanted, depth)
        if isinstance(wanted, Ordinal):
            return self.relation(here, depth) if wanted.base == "boolean" and self.chooser.chance(0.5) else self.sum(here, wanted, depth)
        places = self.readable(here, wanted)
        text = self.chooser.among(places).text if places else None
        return f"({text})" if text and self.chooser.chance(0.2) else text

    def fitting(self, here, wanted, depth=2):
        """A value that is most often in the range of the type, and small."""
        if not isinstance(wanted, Ordinal) or wanted.base == "boolean" or self.chooser.chance(0.05):
            return self.value(here, wanted, depth)
        same = [it.text for it in self.readable(here, wanted) if wanted.low <= it.type.low and it.type.high <= wanted.high]
        if same and self.chooser.chance(0.35):
            return self.chooser.among(same)
        if wanted.base == "integer" and self.chooser.chance(0.6):
            return self.wrapped(here, wanted, depth)
        return self.seen_literal(here, wanted)

    def wrapped(self, here, wanted, depth):
        """A number within few values, however often it is counted up."""
        low = max(wanted.low, 0) if wanted.high >= 0 else wanted.low
        count = min(wanted.high - low + 1, self.chooser.pick(2, 2, 3))
        size = "abs" if here.sees("abs") and (wanted.low >= 0 or self.chooser.chance(0.5)) else ""
        rest = f"{size}({self.sum(here, INTEGER, depth)}) mod {count}"
        return rest if low == 0 else f"{low} + {rest}" if size else self.literal(wanted, low)

    def relation(self, here, depth):
        kind = self.chooser.weighed((6, "ordinals"), (1, "sets"), (1, "in"))
        sets = [it.type for it in here.places if isinstance(it.type, SetOf)]
        if kind != "ordinals" and sets:
            of = self.chooser.among(sets)
            self.chooser.use("set comparison" if kind == "sets" else "in")
            if kind == "sets":
                return f"{self.set_sum(here, of, depth - 1)} {self.chooser.pick('=', '<>')} {self.set_sum(here, of, depth - 1)}"
            return f"{self.sum(here, of.of, depth - 1)} in {self.set_sum(here, of, depth - 1)}"
        wanted = self.chooser.among([it.type for it in here.places + here.counters if isinstance(it.type, Ordinal)] or [INTEGER])
        sign = self.chooser.pick("=", "=", *RELATIONS)
        self.chooser.use(f"sign {sign}")
        right = self.seen_literal(here, wanted) if self.chooser.chance(0.6) else self.sum(here, wanted, depth - 1)
        return f"{self.sum(here, wanted, depth - 1)} {sign} {right}"

    def sum(self, here, wanted, depth):
        if wanted.base == "integer" and depth > 0 and self.chooser.chance(0.4):
            sign = self.chooser.pick("+", "+", "-")
            first = self.chooser.pick("-", "+") if self.chooser.chance(0.06) else ""
            self.chooser.use(f"{'sign ' + first if first else 'operation ' + sign}")
            return f"{first}{self.term(here, wanted, depth - 1)} {sign} {self.term(here, wanted, depth - 1)}"
        if wanted.base == "boolean" and depth > 0 and self.chooser.chance(0.2):
            self.chooser.use("operation or")
            return f"{self.term(here, wanted, depth - 1)} or {self.term(here, wanted, depth - 1)}"
        return self.term(here, wanted, depth)

    def term(self, here, wanted, depth):
        if wanted.base == "integer" and depth > 0 and self.chooser.chance(0.2):
            sign = self.chooser.pick("*", "div", "mod", "mod")
            self.chooser.use(f"operation {sign}")
            right = self.factor(here, wanted, depth - 1) if sign == "*" or self.chooser.chance(0.15) else self.chooser.pick("2", "3")
            return f"{self.factor(here, wanted, depth - 1)} {sign} {right}"
        if wanted.base == "boolean" and depth > 0 and self.chooser.chance(0.2):
            self.chooser.use("operation and")
            return f"{self.factor(here, wanted, depth - 1)} and {self.factor(here, wanted, depth - 1)}"
        return self.factor(here, wanted, depth)

    def factor(self, here, wanted, depth):
        made = self.chooser.weighed((5, self.by_place), (3, self.by_constant), (1.6, self.by_call), (1.2, self.by_standard), (0.5, self.in_parentheses))(here, wanted, depth)
        return made or self.seen_literal(here, wanted)

    def by_place(self, here, wanted, depth):
        places = self.readable(here, wanted)
        return self.chooser.among(places).text if places else None

    def by_constant(self, here, wanted, depth):
        names = [name for name, base in self.constants if base == wanted.base and here.sees(name)]
        if names and self.chooser.chance(0.4):
            self.chooser.use("constant's name")
            return self.chooser.among(names)
        if wanted.base == "integer" and self.chooser.chance(0.03):
            return self.chooser.pick("32767", "127", "200")
        return self.seen_literal(here, wanted)

    def in_parentheses(self, here, wanted, depth):
        return f"({self.value(here, wanted, depth - 1)})" if depth > 0 else None

    def by_standard(self, here, wanted, depth):
        name = self.chooser.among({"integer": ("abs", "ord", "succ", "pred"), "boolean": ("empty", "not", "empty"), "char": ("chr", "succ", "pred")}.get(wanted.base, ("succ", "pred")))
        if depth <= 0 or not here.sees(name):
            return None
        if name == "empty":
            queue = self.queue(here) if here.queues else None
            return self.counted(name, queue and f"empty({queue})")
        if name == "not":
            return self.counted(name, f"not {self.factor(here, wanted, depth - 1)}")
        of = {"abs": INTEGER, "chr": INTEGER, "ord": self.chooser.among([CHAR, BOOLEAN, *(it.type for it in here.places if isinstance(it.type, Ordinal))])}.get(name, wanted)
        inner = self.seen_literal(here, Ordinal("", "integer", 0, 9)) if name == "chr" and self.chooser.chance(0.7) else self.value(here, of, depth - 1)
        return self.counted(name, f"{name}({inner})")

    def counted(self, name, text):
        if text:
            self.chooser.use(f"function {name}")
        return text

    def queue(self, here):
        """One of the queues: some are (name, index type)."""
        queue = self.chooser.among(here.queues)
        return queue if isinstance(queue, str) else f"{queue[0]}[{self.index(here, queue[1])}]"

    # -- calls

    def by_call(self, here, wanted, depth):
        calls = [] if here.is_quiet or depth <= 0 else [it for it in self.callable(here) if it[1].result and it[1].result.base == wanted.base]
        if not calls:
            return None
        self.chooser.use("function call in an expression")
        return self.call(here, *self.chooser.among(calls), depth - 1)

    def callable(self, here):
        """(the text before the name, the routine) of all that can be called."""
        own = [("", routine) for routine in here.routines if not routine.is_entry and here.sees(routine.name)]
        return own + [(f"{text}.", routine) for text, system in self.components(here) for routine in system.routines if routine.is_entry]

    def components(self, here):
        return [(text if index is None else f"{text}[{self.index(here, index)}]", system) for text, system, index in here.components if system.kind != "process"]

    def call(self, here, before, routine, depth):
        """The call, or None where there is no argument for a parameter."""
        arguments = [self.argument(here, mode, of, depth) for mode, _, of in routine.parameters]
        if None in arguments:
            return None
        return f"{before}{routine.name}" + (f"({', '.join(arguments)})" if arguments else "")

    def argument(self, here, mode, wanted, depth):
        if mode == "var":
            same = self.assignable(here, lambda type: are_same(type, wanted))
            self.chooser.use("argument for a var parameter")
            return self.chooser.among(same).text if same else None
        return self.fitting(here, wanted, depth)

    # -- sets

    def set_sum(self, here, wanted, depth):
        if depth > 0 and self.chooser.chance(0.35):
            sign = self.chooser.pick("or", "or", "-", "and")
            self.chooser.use(f"sets {sign}")
            return f"{self.set_factor(here, wanted, depth - 1)} {sign} {self.set_factor(here, wanted, depth - 1)}"
        return self.set_factor(here, wanted, depth)

    def set_factor(self, here, wanted, depth):
        places = self.readable(here, wanted)
        if places and self.chooser.chance(0.5):
            return self.chooser.among(places).text
        self.chooser.use("set of elements")
        elements = [self.fitting(here, wanted.of, depth - 1) for _ in range(self.chooser.pick(0, 1, 1, 2))]
        return f"[{', '.join(elements)}]"

"""Values, places, and what expressions are worth: docs/SEMANTICS.md, Values; docs/LANGUAGE.md, Types.

A value never changes. An ordinal value is a number, a set a frozenset of numbers, an array or a record a tuple, a queue the process
that waits in it or None, and a variable of a system type the number of its component. A place is a tuple: of whom ("frame", and how
many calls of the process are open around it, or "component", and its number), which variable, and which parts on the way.

An expression becomes a function of the state. A state that steps has `frame` and `own`: the variables of the innermost call, and those
of its component.
"""
from tree import Array, Binary, CHAR, Constant, Index, INTEGER, Ordinal, Parenthesised, Record, Routine, Set, SetOf, Standard, Unary

FRAME_HEAD = 2                       # a frame begins with the number of its component and with its body
ANY_MEMBER = Ordinal(INTEGER.base, 0, 127)


class RunError(Exception):
    """Values: a run error, by its name."""


def least(type):
    """Values: every variable begins as the least value of its type, but an integer begins as 0."""
    if isinstance(type, Ordinal):
        return 0 if type == INTEGER else type.low
    if isinstance(type, Set):
        return frozenset()
    if isinstance(type, Array):
        return (least(type.element),) * (type.index.high - type.index.low + 1)
    if isinstance(type, Record):
        return tuple(map(least, type.fields.values()))
    return None                      # a queue in which nobody waits; a component that is not bound yet


def checked(type, value):
    """Values, `range`: the value, if it is one of this type."""
    if isinstance(type, Ordinal):
        fits = type.low <= value <= type.high
    else:
        fits = not isinstance(type, Set) or all(type.base.low <= member <= type.base.high for member in value)
    if not fits:
        raise RunError("range")
    return value


def fitting(number):
    """Values, `overflow`."""
    if not -32768 <= number <= 32767:
        raise RunError("overflow")
    return number


def quotient(left, right):
    """LANGUAGE.md, Types: `div` truncates towards zero. Values, `zero-divisor`."""
    if right == 0:
        raise RunError("zero-divisor")
    return abs(left) // abs(right) * (1 if (left < 0) == (right < 0) else -1)


NUMBERS = {                          # LANGUAGE.md, Types: the operations; truth values are 0 and 1
    "+": lambda a, b: fitting(a + b),
    "-": lambda a, b: fitting(a - b),
    "*": lambda a, b: fitting(a * b),
    "div": lambda a, b: fitting(quotient(a, b)),
    "mod": lambda a, b: a - b * quotient(a, b),
    "and": lambda a, b: a & b,
    "or": lambda a, b: a | b,
    "=": lambda a, b: int(a == b),
    "<>": lambda a, b: int(a != b),
    "<": lambda a, b: int(a < b),
    ">": lambda a, b: int(a > b),
    "<=": lambda a, b: int(a <= b),
    ">=": lambda a, b: int(a >= b),
    "in": lambda a, b: int(a in b),
}
SETS = {**NUMBERS, "-": lambda a, b: a - b}      # `or`, `and` are union and intersection of frozensets too
SIGNS = {"+": lambda a: a, "-": lambda a: fitting(-a), "not": lambda a: 1 - a}


def standard(name, type):
    """LANGUAGE.md, Types: succ, pred, chr, ord and abs of a value of this type. Values, `range`."""
    base = Ordinal(type.base, type.base.low, type.base.high)
    return {"succ": lambda a: checked(base, a + 1), "pred": lambda a: checked(base, a - 1), "chr": lambda a: checked(CHAR, a),
            "ord": lambda a: a, "abs": lambda a: fitting(abs(a))}[name]


def with_part(whole, path, part):
    """The value `whole`, with `part` in the place to which `path` leads."""
    if not path:
        return part
    at = path[0]
    return whole[:at] + (with_part(whole[at], path[1:], part),) + whole[at + 1:]


class Expressions:
    """Makes functions of the expressions of one body. `calls` are the function calls of the statement at hand, innermost first."""

    def __init__(self, slots):
        self.slots = slots           # of each variable: its number among those of its call or component
        self.calls = []

    def function_call(self, use):
        """Adds the call to `calls`, and answers the slot of its result."""
        raise NotImplementedError

    def value(self, e):
        """Values, left to right: an operation is done as soon as its operands are evaluated; both operands are."""
        if isinstance(e, Constant):
            return lambda s: e.value
        if isinstance(e, Parenthesised):
            return self.value(e.inner)
        if isinstance(e, Unary):
            operate, operand = SIGNS[e.operator], self.value(e.operand)
            return lambda s: operate(operand(s))
        if isinstance(e, Binary):
            operate = (SETS if isinstance(e.left.type, Set) else NUMBERS)[e.operator]
            left, right = self.value(e.left), self.value(e.right)
            return lambda s: operate(left(s), right(s))
        if isinstance(e, SetOf):
            members = [self.value(one) for one in e.elements]
            return lambda s: frozenset([checked(ANY_MEMBER, one(s)) for one in members])
        return self.used(e)

    def used(self, use):
        """The value of a name with selectors or arguments."""
        if isinstance(use.means, Constant):
            return lambda s: use.means.value
        if isinstance(use.means, Routine):
            slot = self.function_call(use)           # Values, calls first: what is left reads the result
            return lambda s: s.frame[slot]
        if isinstance(use.means, Standard):
            operand = self.value(use.args[0])
            if use.means.name == "empty":
                return lambda s: int(operand(s) is None)
            operate = standard(use.means.name, use.args[0].type)
            return lambda s: operate(operand(s))
        return self.variable(use)

    def variable(self, use):
        """The value in a place."""
        slot = self.slots[use.means]
        if use.selectors or use.means.by_reference:
            place = self.place(use)
            return lambda s: s.read(place(s))
        return (lambda s: s.frame[slot]) if use.means.local else (lambda s: s.own[slot])

    def place(self, use):
        """The place of a variable, found when it is needed. Of a `var` parameter: the argument's place (Assignments and calls)."""
        slot, path = self.slots[use.means], self.path(use)
        if use.means.by_reference:
            def place(s):
                whose, number, at, before = s.frame[slot]
                return whose, number, at, before + tuple([part(s) for part in path])
        elif use.means.local:
            def place(s):
                return "frame", len(s.frames[s.process]) - 1, slot, tuple([part(s) for part in path])
        else:
            def place(s):
                return "component", s.frame[0], slot, tuple([part(s) for part in path])
        return place

    def path(self, use):
        """For each selector: which part it chooses."""
        parts, type = [], use.means.type
        for selector in use.selectors:
            if isinstance(selector, Index):
                parts.append(self.index(selector))
                type = type.element
            else:
                position = list(type.fields).index(selector.name)
                parts.append(lambda s, position=position: position)
                type = type.fields[selector.name]
        return parts

    def index(self, selector):
        """Values, left to right: an index is checked where it is written."""
        value, index = self.value(selector.value), selector.array.index
        return lambda s: checked(index, value(s)) - index.low

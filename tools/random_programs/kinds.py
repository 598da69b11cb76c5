"""What a random program is made of: its types, places, routines and systems, and what can be said at one point of it."""
from dataclasses import dataclass, field, replace


@dataclass(frozen=True)
class Ordinal:
    """An ordinal type as it is written: its base ('integer', 'char', 'boolean' or the name of an enumeration) and bounds."""
    text: str
    base: str
    low: int
    high: int


@dataclass(frozen=True)
class SetOf:
    text: str
    of: Ordinal


@dataclass(frozen=True)
class Array:
    """Those that are written where they are used are told apart by a number."""
    text: str
    index: Ordinal
    element: object
    number: int = 0


@dataclass(frozen=True)
class Record:
    text: str
    fields: tuple
    number: int = 0


INTEGER = Ordinal("integer", "integer", -32768, 32767)
CHAR = Ordinal("char", "char", 0, 127)
BOOLEAN = Ordinal("boolean", "boolean", 0, 1)


def are_same(one, other):
    """Whether an argument of one type fits a `var` parameter of the other."""
    if isinstance(one, Ordinal) and isinstance(other, Ordinal):
        return (one.base, one.low, one.high) == (other.base, other.low, other.high)
    if isinstance(one, SetOf) and isinstance(other, SetOf):
        return are_same(one.of, other.of)
    return one == other


@dataclass(frozen=True)
class Place:
    """A variable or a part of one, as it is written."""
    text: str
    type: object
    is_open: bool = True


@dataclass(frozen=True)
class Routine:
    name: str
    parameters: tuple
    result: object = None
    is_entry: bool = False
    waits: bool = False


@dataclass
class System:
    kind: str
    name: str
    parameters: list = field(default_factory=list)
    routines: list = field(default_factory=list)


@dataclass
class Here:
    """What can be said at one point: the variables, the queues, the components that can be called, and the routines of the same block."""
    kind: str
    part: str = "initial"
    is_entry: bool = False
    is_quiet: bool = False
    places: list = field(default_factory=list)
    counters: list = field(default_factory=list)
    queues: list = field(default_factory=list)
    components: list = field(default_factory=list)
    routines: list = field(default_factory=list)
    hidden: frozenset = frozenset()
    result: object = None

    def sees(self, name):
        return name not in self.hidden

    def quietly(self):
        return replace(self, is_quiet=True)

    def may_continue(self):
        return self.kind == "monitor" and self.part == "procedure" and self.is_entry and self.queues and self.sees("continue")

    def may_delay(self):
        return self.kind == "monitor" and self.part != "initial" and self.queues and self.sees("delay")

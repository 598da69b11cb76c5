"""The syntax tree of a program, and what its names and types stand for (docs/LANGUAGE.md, Grammar, Names and Types).

`scanner.scan`, `parser.parse` and `rules.check` raise Refusal at the first fault. `parse(tokens)` makes the tree, and `check(program)`
answers the same tree and gives a value to the fields that had a default. After that:

- Each Use has `means`: the Constant, Variable, Standard or Routine that it stands for.
  - Constant: `means.value` is its value.
  - Variable: a place. Its first name is the variable, `selectors` lead on from there. `type` is the type of the place.
    - In an assignment or a `for` to a function's name, `means` is the function's `result`, a Variable.
    - In a start, the place is the component and `args` are the arguments of its `system`.
  - Standard: one of the predeclared routines, with one argument.
  - Routine: a call. `component` is the place of the component for `component.routine(..)`, and None for a routine of the own type.
    A call in an expression is that of a function.
- Each expression has a `type`. Only `[]` has the type Set(None). Ordinal values are numbers: `ord` of the value.
- Each Constant has `value`, so labels of a `case` are `label.value`.
- Each System and Routine has `parameters` and `variables`, in the order of their declaration.
- All array types of components have one index. The list of all components of the program is not made here.

Nothing is equal to anything but itself, except ordinal and set types: these are equal if they are the same type.
Long sums and terms are deep to the left, all else has at most 50 levels.
"""
from __future__ import annotations
from dataclasses import dataclass, field, make_dataclass
from typing import Optional, Union


class Refusal(Exception):
    """The first fault of a source: "scan: bad byte", "parse: unexpected", "check C5" .. (docs/REPORT.md, A refusal)."""

    def __init__(self, line: int, fault: str):
        super().__init__(f"line {line} {fault}")
        self.line, self.fault = line, fault


# What types stand for (docs/LANGUAGE.md, Types).

@dataclass(eq=False)
class Base:
    """integer, char, boolean, or an enumeration."""
    name: str                        # "integer", "char", "boolean", "enumeration"
    low: int
    high: int
    names: list[str] = field(default_factory=list)      # of truth values and of the constants of an enumeration, in lower case
    token: int = 0                   # of an enumeration: the first one of its type


@dataclass(frozen=True)
class Ordinal:
    """A base, or a part of it."""
    base: Base
    low: int
    high: int


@dataclass(frozen=True)
class Set:
    base: Optional[Ordinal]          # None: of the empty set `[]`


@dataclass(eq=False)
class Array:
    index: Ordinal
    element: Type


@dataclass(eq=False)
class Record:
    fields: dict[str, Type]          # in the order of their declaration


@dataclass(eq=False)
class Queue:
    pass


INTEGER = Ordinal(Base("integer", -32768, 32767), -32768, 32767)
CHAR = Ordinal(Base("char", 0, 127), 0, 127)
BOOLEAN = Ordinal(Base("boolean", 0, 1, ["false", "true"]), 0, 1)
QUEUE = Queue()


# What names stand for, beside types, Constant, System and Routine.

@dataclass(eq=False)
class Variable:
    """A variable, a parameter, a component, or the place of a function's result."""
    name: str                        # of a result: the function's name and "()"
    type: Type
    local: bool                      # of a routine: in the frame of the call; else of the component
    parameter: bool = False
    by_reference: bool = False       # a `var` parameter


@dataclass(eq=False)
class Standard:
    """A predeclared routine: succ, pred, chr, ord, abs, empty; delay, continue, display."""
    name: str
    function: bool


# The tree. The fields of a node are in the order of the source. Those with a default are filled in by `rules.check`.

@dataclass(eq=False)
class Node:
    """Line and number of the first token, counted from 0; of an empty statement those of the token that follows."""
    line: int
    token: int


def node(name: str, *parts: str, **defaults) -> type:
    return make_dataclass(name, [(part, object) for part in parts] + [(part, object, value) for part, value in defaults.items()],
                          bases=(Node,), eq=False)


# Expressions.

@dataclass(eq=False)
class Constant(Node):
    """A number or a character, with or without a sign, or a name that has to be that of a constant; and what such a name stands for."""
    sign: str                        # "", "+", "-"
    name: Optional[Name]             # None: the value is written
    value: int = 0
    type: Type = None


@dataclass(eq=False)
class Use(Node):
    """A name with its selectors and arguments: the grammar's `desig ["(" args ")"]`."""
    name: str
    selectors: list[Union[Field, Index]]
    args: list[Expression]           # none: there are no parentheses
    means: Union[Constant, Variable, Standard, Routine] = None
    type: Type = None                # of a value or place; None for a procedure
    component: Optional[Use] = None  # of a call `component.routine(..)`; the last selector is then the routine
    system: Optional[System] = None  # of a start: that of the component


Name = node("Name", "text")                                       # in lower case
Field = node("Field", "name")
Index = node("Index", "value", array=None)                        # and the array type that it is an index of
SetOf = node("SetOf", "elements", type=None)
Parenthesised = node("Parenthesised", "inner", type=None)
Unary = node("Unary", "operator", "operand", type=None)           # + - not
Binary = node("Binary", "operator", "left", "right", type=None)   # = <> < > <= >= in + - or * div mod and
Expression = Union[Constant, Use, SetOf, Parenthesised, Unary, Binary]

# Statements.

Assert = node("Assert", "condition", "statement")    # an assertion and the statement after it; a run error has the line of the condition
Empty = node("Empty")
Assign = node("Assign", "target", "value")
Call = node("Call", "use")                           # a procedure statement, also delay, continue and display
Begin = node("Begin", "body")
If = node("If", "condition", "then", "otherwise")    # otherwise: None without `else`
Case = node("Case", "selector", "arms")
Arm = node("Arm", "labels", "statement")             # labels: a list of Constant
While = node("While", "condition", "body")
Repeat = node("Repeat", "body", "condition")
For = node("For", "variable", "first", "down", "last", "body")      # variable: a Use
Cycle = node("Cycle", "body")
Init = node("Init", "starts")                        # a list of Use
Statement = Union[Assert, Empty, Assign, Call, Begin, If, Case, While, Repeat, For, Cycle, Init]

# Types as they are written, and declarations.

NamedType = node("NamedType", "name")
EnumerationType = node("EnumerationType", "names")
SubrangeType = node("SubrangeType", "low", "high")
ArrayType = node("ArrayType", "index", "element")
SetType = node("SetType", "base")
RecordType = node("RecordType", "groups")
WrittenType = Union[NamedType, EnumerationType, SubrangeType, ArrayType, SetType, RecordType]

ConstantDefinition = node("ConstantDefinition", "name", "value")
TypeDefinition = node("TypeDefinition", "name", "type")
Group = node("Group", "names", "type", by_reference=False)          # variables, parameters or fields of one type


@dataclass(eq=False)
class Routine(Node):
    """Begins with the word `procedure` or `function`."""
    function: bool
    entry: Optional[Name]            # the word `entry`
    name: Name
    groups: list[Group]              # of its parameters
    result_type: Optional[NamedType]
    declarations: list[Declaration]
    body: list[Statement]
    parameters: list[Variable] = field(default_factory=list)
    variables: list[Variable] = field(default_factory=list)
    result: Optional[Variable] = None
    system: System = None            # the type, or the program, that it belongs to
    delays: bool = False             # delay is in it, or in a routine of its type that it calls
    need: int = 0                    # its frame cells


@dataclass(eq=False)
class System(Node):
    """The program, or a class, monitor or process; it is also the type of its components."""
    kind: str                        # "program", "class", "monitor", "process"
    name: Optional[Name]
    groups: list[Group]              # of its parameters
    declarations: list[Declaration]
    invariants: list[Expression]
    routines: list[Routine]
    body: list[Statement]
    end: int                         # the line of the token after it; of the program, that of the period
    parameters: list[Variable] = field(default_factory=list)
    variables: list[Variable] = field(default_factory=list)     # components are among them
    need: int = 0                    # the frame cells of its initial statement
    size: tuple = (0, 0, 0)          # of a component: the components and processes in it, and the permanent cells with theirs


Declaration = Union[ConstantDefinition, TypeDefinition, Group, System]
Type = Union[Ordinal, Set, Array, Record, Queue, System]

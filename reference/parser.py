"""Tokens to a tree: docs/LANGUAGE.md, Grammar; the faults: docs/REPORT.md, A refusal. Each method reads the rule of the grammar that it names."""
from __future__ import annotations
import tree
from tree import Refusal
from scanner import Token

OUTSIDE_PROFILE = ("with", "univ", "program")
RELATIONS = ("=", "<>", "<", ">", "<=", ">=", "in")
MOST_LEVELS = 50


def parse(tokens: list[Token]) -> tree.System:
    return Parser(tokens).program()


class Parser:
    def __init__(self, tokens: list[Token]):
        self.tokens = tokens
        self.next = 0                # the number of the next token

    # The next token.

    @property
    def kind(self) -> str:
        return self.tokens[self.next].kind if self.next < len(self.tokens) else ""

    def here(self) -> tuple[int, int]:
        """The line and the number of the next token; at the end the line of the last one."""
        nearest = self.tokens[min(self.next, len(self.tokens) - 1)] if self.tokens else Token("", 1)
        return nearest.line, self.next

    def refusal(self, fault: str) -> Refusal:
        return Refusal(self.here()[0], "parse: " + fault)

    def take(self, *kinds: str) -> Token:
        """The next token, which has to be one of these."""
        if self.kind not in kinds:
            raise self.refusal("outside profile" if self.kind in OUTSIDE_PROFILE else "unexpected")
        self.next += 1
        return self.tokens[self.next - 1]

    def accept(self, kind: str) -> bool:
        """Whether this token is next; then it is taken."""
        if self.kind == kind:
            self.take(kind)
            return True
        return False

    def before(self, kind: str, part):
        """What was read, and the token that has to follow it."""
        self.take(kind)
        return part

    def several(self, read, separator: str, end: str = None) -> list:
        """What `read` reads, once or more, with separators between, and perhaps one before the end."""
        found = [read()]
        while self.accept(separator) and self.kind != end:
            found.append(read())
        return found

    def deeper(self, around: int) -> int:
        """Levels: the level inside what has the level `around`, which is 0 where there is none."""
        if around == MOST_LEVELS:
            raise self.refusal("too deep")
        return around + 1

    # Declarations.

    def program(self) -> tree.System:
        place = self.here()
        block = self.block("program")
        end, _ = self.here()
        self.take(".")
        if self.next < len(self.tokens):
            self.take()
        return tree.System(*place, "program", None, [], *block, end)

    def system(self, name: tree.Name) -> tree.System:
        place = self.here()
        kind = self.take("class", "monitor", "process").kind
        groups = self.groups(with_var=False)
        self.accept(";")
        return tree.System(*place, kind, name, groups, *self.block(kind), self.here()[0])

    def block(self, kind: str) -> tuple:
        """What program and system have in common: parts, invariants, routines and body."""
        declarations, invariants, routines = self.parts(kind == "program"), [], []
        while kind in ("class", "monitor") and self.accept("(* invariant"):
            invariants.append(self.before("*)", self.expression(0)))
        while self.kind in ("procedure", "function"):
            routines.append(self.routine())
        return declarations, invariants, routines, self.body()

    def parts(self, of_program: bool) -> list[tree.Declaration]:
        readers = {"const": self.cdef, "type": lambda: self.tdef(of_program), "var": self.vdef}
        found = []
        while self.kind in readers:
            read = readers[self.take(self.kind).kind]
            found.append(read())
            while self.kind == "name":
                found.append(read())
        return found

    def cdef(self) -> tree.ConstantDefinition:
        return tree.ConstantDefinition(*self.here(), self.before("=", self.name()), self.before(";", self.constant()))

    def tdef(self, of_program: bool) -> tree.Declaration:
        """tdef in the program, pdef elsewhere"""
        place, name = self.here(), self.before("=", self.name())
        if of_program and self.kind in ("class", "monitor", "process"):
            return self.before(";", self.system(name))
        return tree.TypeDefinition(*place, name, self.before(";", self.type(0)))

    def vdef(self) -> tree.Group:
        return self.before(";", self.variables(0))

    def variables(self, level: int) -> tree.Group:
        """names ":" type"""
        return tree.Group(*self.here(), self.before(":", self.names()), self.type(level))

    def name(self) -> tree.Name:
        return tree.Name(*self.here(), self.take("name").value)

    def names(self) -> list[tree.Name]:
        return self.several(self.name, ",")

    def named_type(self) -> tree.NamedType:
        return tree.NamedType(*self.here(), self.take("name").value)

    def groups(self, with_var: bool) -> list[tree.Group]:
        """["(" group {";" group} ")"], or the same of vgroups"""
        if self.accept("("):
            return self.before(")", self.several(lambda: self.group(with_var), ";"))
        return []

    def group(self, with_var: bool) -> tree.Group:
        place, by_reference = self.here(), with_var and self.accept("var")
        return tree.Group(*place, self.before(":", self.names()), self.named_type(), by_reference)

    def routine(self) -> tree.Routine:
        place = self.here()
        function = self.take("procedure", "function").kind == "function"
        word = tree.Name(*self.here(), "entry")
        entry = word if self.accept("entry") else None
        name, groups = self.name(), self.groups(with_var=not function)
        result = self.named_type() if function and self.take(":") else None
        self.take(";")
        return tree.Routine(*place, function, entry, name, groups, result, self.parts(False), self.before(";", self.body()))

    # Types and constants.

    def type(self, around: int) -> tree.WrittenType:
        level, place = self.deeper(around), self.here()
        if self.accept("array"):
            self.take("[")
            index = self.before("]", self.simple())
            self.take("of")
            return tree.ArrayType(*place, index, self.type(level))
        if self.accept("set"):
            self.take("of")
            return tree.SetType(*place, self.simple())
        if self.accept("record"):
            return tree.RecordType(*place, self.before("end", self.several(lambda: self.variables(level), ";", "end")))
        return self.simple()

    def simple(self) -> tree.WrittenType:
        place = self.here()
        if self.accept("("):
            return tree.EnumerationType(*place, self.before(")", self.names()))
        low = self.constant()
        if low.name and not low.sign and self.kind != "..":
            return tree.NamedType(*place, low.name.text)
        self.take("..")
        return tree.SubrangeType(*place, low, self.constant())

    def constant(self) -> tree.Constant:
        place = self.here()
        sign = self.take(self.kind).kind if self.kind in ("+", "-") else ""
        if self.kind == "name":
            return tree.Constant(*place, sign, self.name())
        return self.literal(place, sign, ("number",) if sign else ("number", "char"))

    def literal(self, place: tuple, sign: str, kinds: tuple) -> tree.Constant:
        token = self.take(*kinds)
        value = -token.value if sign == "-" else token.value
        return tree.Constant(*place, sign, None, value, tree.CHAR if token.kind == "char" else tree.INTEGER)

    # Statements.

    def body(self) -> list[tree.Statement]:
        self.take("begin")
        return self.before("end", self.statements(0))

    def statements(self, around: int) -> list[tree.Statement]:
        """stats"""
        return self.several(lambda: self.statement(around), ";")

    def statement(self, around: int) -> tree.Statement:
        """stat"""
        return self.asserted(self.deeper(around))

    def asserted(self, level: int) -> tree.Statement:
        """{assertion} plain"""
        place = self.here()
        if self.accept("(* assert"):
            return tree.Assert(*place, self.before("*)", self.expression(level)), self.asserted(level))
        return self.plain(level)

    def plain(self, level: int) -> tree.Statement:
        place = self.here()
        if self.kind == "name":
            use = self.call(level)
            if not use.args and self.accept(":="):
                return tree.Assign(*place, use, self.expression(level))
            return tree.Call(*place, use)
        if self.accept("begin"):
            return tree.Begin(*place, self.before("end", self.statements(level)))
        if self.accept("if"):
            condition, then = self.before("then", self.expression(level)), self.statement(level)
            return tree.If(*place, condition, then, self.statement(level) if self.accept("else") else None)
        if self.accept("case"):
            selector = self.before("of", self.expression(level))
            return tree.Case(*place, selector, self.before("end", self.several(lambda: self.arm(level), ";", "end")))
        if self.accept("while"):
            return tree.While(*place, self.before("do", self.expression(level)), self.statement(level))
        if self.accept("repeat"):
            return tree.Repeat(*place, self.before("until", self.statements(level)), self.expression(level))
        if self.accept("for"):
            variable = self.before(":=", tree.Use(*self.here(), self.take("name").value, [], []))
            first, down = self.expression(level), self.take("to", "downto").kind == "downto"
            return tree.For(*place, variable, first, down, self.before("do", self.expression(level)), self.statement(level))
        if self.accept("cycle"):
            return tree.Cycle(*place, self.before("end", self.statements(level)))
        if self.accept("init"):
            return tree.Init(*place, self.several(lambda: self.call(level), ","))
        return tree.Empty(*place)

    def arm(self, level: int) -> tree.Arm:
        return tree.Arm(*self.here(), self.before(":", self.several(self.constant, ",")), self.statement(level))

    # Expressions. The level is that of the nearest statement or expression around them.

    def call(self, level: int) -> tree.Use:
        """desig ["(" args ")"], also start"""
        place, name, selectors, args = self.here(), self.take("name").value, [], []
        while self.kind in (".", "["):
            at = self.here()
            if self.accept("."):
                selectors.append(tree.Field(*self.here(), self.take("name").value))
            else:
                self.take("[")
                selectors.append(tree.Index(*at, self.before("]", self.expression(level))))
        if self.accept("("):
            args = self.before(")", self.expressions(level))
        return tree.Use(*place, name, selectors, args)

    def expressions(self, level: int) -> list[tree.Expression]:
        """args"""
        return self.several(lambda: self.expression(level), ",")

    def expression(self, around: int) -> tree.Expression:
        """expr"""
        level, place = self.deeper(around), self.here()
        left = self.sum(level)
        if self.kind in RELATIONS:
            return tree.Binary(*place, self.take(self.kind).kind, left, self.sum(level))
        return left

    def sum(self, level: int) -> tree.Expression:
        place = self.here()
        left = tree.Unary(*place, self.take(self.kind).kind, self.term(level)) if self.kind in ("+", "-") else self.term(level)
        while self.kind in ("+", "-", "or"):
            left = tree.Binary(*place, self.take(self.kind).kind, left, self.term(level))
        return left

    def term(self, level: int) -> tree.Expression:
        place, left = self.here(), self.factor(level)
        while self.kind in ("*", "div", "mod", "and"):
            left = tree.Binary(*place, self.take(self.kind).kind, left, self.factor(level))
        return left

    def factor(self, level: int) -> tree.Expression:
        place = self.here()
        if self.kind == "name":
            return self.call(level)
        if self.accept("("):
            return tree.Parenthesised(*place, self.before(")", self.expression(level)))
        if self.accept("not"):
            return tree.Unary(*place, "not", self.factor(self.deeper(level)))
        if self.accept("["):
            return tree.SetOf(*place, self.before("]", [] if self.kind == "]" else self.expressions(level)))
        return self.literal(place, "", ("number", "char"))

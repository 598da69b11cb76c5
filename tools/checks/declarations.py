"""A simple reading of a Concurrent Pascal program: its lexemes, its declarations by name, and of what kind a name with its selectors is at a place."""
import re
from dataclasses import dataclass, field

LEXEME = re.compile(r"\s+|\"[^\"]*\"|'[^'\n]*'|[0-9]+|[A-Za-z]\w*|<>|<=|>=|:=|\.\.|\(\.|\.\)|.", re.A | re.S)
RESERVED = set("""array begin case class const cycle div do downto else end entry for function if in init mod monitor not of or and procedure process record
repeat set then to type until var while with univ program""".split())
SPELT = {"(.": "[", ".)": "]", "&": "and"}
OPENING, CLOSING = {"begin", "case", "cycle", "record", "repeat"}, {"end", "until"}
RELATIONS = {"=", "<>", "<", ">", "<=", ">=", "in"}
OPERATORS = RELATIONS | {"+", "-", "*", "div", "mod", "and", "or"}
PROCEDURES, FUNCTIONS = {"display", "delay", "continue"}, {"abs", "chr", "empty", "ord", "pred", "succ"}
STANDARD = {"integer": "integer", "boolean": "boolean", "char": "character", "queue": "queue"}
RESULTS = {"abs": "integer", "ord": "integer", "chr": "character", "empty": "boolean"}
# What a sentence calls a value, and the word for its type here.
PHRASES = {"an integer": "integer", "a boolean": "boolean", "a character": "character", "a value of an enumeration": "enumeration", "a set": "set",
           "a queue": "queue", "a record": "record", "an array": "array", "a component": "component"}
ORDINAL = {"integer", "boolean", "character", "enumeration"}


@dataclass(frozen=True)
class Lexeme:
    text: str
    raw: str
    line: int
    column: int

    @property
    def is_name(self):
        return self.raw[0].isalpha() and self.text not in RESERVED


def lexemes(source):
    """The lexemes of a source; comments and blanks are none."""
    found, line, begun = [], 1, 0
    for piece in LEXEME.finditer(source):
        raw = piece[0]
        if not raw.isspace() and raw[0] != '"':
            found.append(Lexeme(SPELT.get(raw, raw.lower()), raw, line, piece.start() - begun + 1))
        if "\n" in raw:
            line, begun = line + raw.count("\n"), piece.start() + raw.rindex("\n") + 1
    return found


@dataclass
class Scope:
    """A block: the system type that it is in, and where it ends."""
    owner: str = ""
    end: int = 1 << 30


@dataclass
class Declared:
    name: str
    kind: str
    type: tuple
    at: int
    seen: int
    scope: Scope
    parameters: list = field(default_factory=list)


class Reading:
    """The declarations of a program that the parser accepts."""

    def __init__(self, tokens):
        self.tokens, self.at, self.declared, self.bodies, self.systems = tokens, 0, [], [], {}
        self.block(Scope())

    def text(self, at=None):
        at = self.at if at is None else at
        return self.tokens[at].text if at < len(self.tokens) else ""

    def take(self, *words):
        if self.text() not in words:
            return False
        self.at += 1
        return True

    def names(self):
        found = [self.at]
        while self.text(self.at + 1) == ",":
            self.at += 2
            found.append(self.at)
        self.at += 1
        return found

    def add(self, at, kind, what, scope, parameters=()):
        self.declared.append(Declared(self.text(at), kind, what, at, self.at, scope, list(parameters)))

    # -- declarations, each from its first lexeme on

    def block(self, scope):
        while self.text() in ("const", "type", "var"):
            part = self.text()
            self.at += 1
            while self.tokens[self.at].is_name and self.text(self.at + 1) in ("=", ":", ","):
                getattr(self, part)(scope)
        while self.text() in ("procedure", "function"):
            self.routine(scope)
        self.body(scope)

    def const(self, scope):
        at, self.at = self.at, self.at + 2
        first = self.at + (self.text() in "+-")
        while self.text() != ";":
            self.at += 1
        self.add(at, "constant", ("as", first), scope)
        self.at += 1

    def type(self, scope):
        at, self.at = self.at, self.at + 2
        if self.text() in ("class", "monitor", "process"):
            self.system(at, scope)
            return
        written = self.written(scope)
        self.add(at, "type", written, scope)
        self.take(";")

    def var(self, scope):
        names = self.names()
        self.take(":")
        written = self.written(scope)
        for at in names:
            self.add(at, "variable", written, scope)
        self.take(";")

    def system(self, at, scope):
        self.at += 1
        inner = Scope(self.text(at))
        parameters = self.groups(inner)
        self.take(";")
        self.systems[self.text(at)] = (at, inner)
        self.block(inner)
        self.add(at, "type", ("component", self.text(at)), scope, parameters)
        self.take(";")

    def groups(self, scope):
        found = []
        if self.take("("):
            while not self.take(")"):
                is_var = self.take("var")
                names = self.names()
                written, self.at = ("name", self.at + 1), self.at + 2
                for at in names:
                    self.add(at, "variable" if is_var else "parameter", written, scope)
                    found.append((("var " if is_var else "") + f"{self.tokens[at].raw}: {self.tokens[written[1]].raw}", written))
                self.take(";")
        return found

    def routine(self, scope):
        kind = self.text()
        self.at += 1
        self.take("entry")
        at, self.at = self.at, self.at + 1
        inner = Scope(scope.owner)
        parameters = self.groups(inner)
        result = ("name", self.at + 1) if kind == "function" else None
        while not self.take(";"):
            self.at += 1
        self.add(at, kind, result, scope, parameters)
        self.block(inner)
        self.take(";")

    def body(self, scope):
        begun, depth = self.at, 0
        while self.at < len(self.tokens):
            depth += (self.text() in OPENING) - (self.text() in CLOSING)
            self.at += 1
            if depth == 0:
                break
        scope.end = self.at
        self.bodies.append((begun, self.at))

    def written(self, scope):
        """The type that is written here, as (word, ..)."""
        if self.take("array"):
            self.take("[")
            index = self.written(scope)
            self.at += 2
            return ("array", index, self.written(scope), self.at)
        if self.take("set"):
            self.take("of")
            return ("set", self.written(scope))
        if self.take("record"):
            fields = {}
            while not self.take("end"):
                names = [self.text(at) for at in self.names()]
                self.take(":")
                fields.update(dict.fromkeys(names, self.written(scope)))
                self.take(";")
            return ("record", fields)
        at = self.at
        if self.take("("):
            for name in self.names():
                self.add(name, "constant", ("enumeration", at), scope)
            self.take(")")
            return ("enumeration", at)
        self.at += 1 + (self.text() in "+-")
        if self.take(".."):
            self.at += 1 + (self.text() in "+-")
            return ("as", at + (self.text(at) in "+-"))
        return ("name", at)

    # -- what is there at a place

    def owner_at(self, at):
        return next((name for name, (begun, scope) in self.systems.items() if begun <= at < scope.end), "")

    def find(self, name, at):
        """The declaration of a name that is visible at a place: that of the innermost block."""
        owner = self.owner_at(at)
        seen = [it for it in self.declared if it.name == name and it.seen <= at < it.scope.end and (it.kind in ("constant", "type") or it.scope.owner == owner)]
        return min(seen, key=lambda it: it.scope.end, default=None)

    def is_in_body(self, at):
        return any(begun <= at < end for begun, end in self.bodies)

    def kind(self, name, at):
        """What a name is: constant, type, variable, parameter, procedure or function."""
        one = self.find(name, at)
        if one:
            return one.kind
        standard = [("constant", {"false", "true"}), ("type", STANDARD), ("procedure", PROCEDURES), ("function", FUNCTIONS)]
        return next((kind for kind, names in standard if name in names), None)

    def resolved(self, what):
        """A type without names: (word, ..) of PHRASES; None where it is not known."""
        for _ in range(100):
            if what is None or what[0] not in ("name", "as"):
                return what
            text, at = self.text(what[1]), what[1]
            if what[0] == "as" and text[0].isdigit():
                return ("integer",)
            if what[0] == "as" and text[0] == "'":
                return ("character",)
            one = self.find(text, at)
            if one is None:
                return ("boolean",) if text in ("false", "true") else (STANDARD[text],) if text in STANDARD else None
            what = one.type
        return None

    def designated(self, tokens, at):
        """What lexemes that begin with a name are at a place, as (kind, type), and how many they are."""
        name, used = tokens[0], 1
        one = self.find(name, at)
        kind, what, routines = self.kind(name, at), self.resolved(one.type if one else None), one
        if one is None and kind == "constant":
            what = ("boolean",)
        while used < len(tokens):
            if tokens[used] == "[" and what and what[0] == "array":
                used, kind, what = closed(tokens, used), "element", self.resolved(what[2])
            elif tokens[used] == "." and what and what[0] == "record":
                kind, what, used = "field", self.resolved(what[1].get(tokens[used + 1])), used + 2
            elif tokens[used] == "." and what and what[0] == "component":
                inner = self.systems[what[1]][1]
                routines = next((it for it in self.declared if it.scope is inner and it.name == tokens[used + 1]), None)
                kind, what = (routines.kind, self.resolved(routines.type)) if routines else (None, None)
                used += 2
            else:
                break
        return kind, what, used, routines

    def types_at(self, tokens, at):
        """The words of the types that an expression at a place may have; none where that is not known."""
        operators = operators_in(tokens)
        if operators & RELATIONS or tokens[:1] == ["not"] and not operators:
            return {"boolean"}
        if operators:
            return {"integer"} if operators & {"*", "div", "mod", "+"} else {"integer", "set", "boolean"}
        first = tokens[0] if tokens else ""
        if first == "(" and closed(tokens, 0) == len(tokens):
            return self.types_at(tokens[1:-1], at)
        if first == "[" and closed(tokens, 0) == len(tokens):
            return {"set"}
        if len(tokens) == 1 and (first[0].isdigit() or first[0] == "'"):
            return {"integer" if first[0].isdigit() else "character"}
        if not first[:1].isalpha() or first in RESERVED:
            return set()
        kind, what, used, _ = self.designated(tokens, at)
        rest = tokens[used:]
        if kind in ("variable", "parameter", "constant", "field", "element") and not rest and what:
            return {what[0]}
        if kind == "function" and (not rest or rest[0] == "(" and closed(rest, 0) == len(rest)):
            return {what[0]} if what else {RESULTS[first]} if first in RESULTS and not self.find(first, at) else set()
        return set()


def operators_in(tokens):
    """The operators that stand in no brackets."""
    found, at = set(), 0
    while at < len(tokens):
        if tokens[at] in OPERATORS:
            found.add(tokens[at])
        at = closed(tokens, at) if tokens[at] in ("(", "[") else at + 1
    return found


def closed(tokens, at):
    """The number behind the bracket that closes the one at this number."""
    depth = 0
    for number in range(at, len(tokens)):
        depth += (tokens[number] in "([") - (tokens[number] in ")]")
        if depth == 0:
            return number + 1
    return len(tokens)

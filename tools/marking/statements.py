"""The bodies of a program and their statements, read from the lexemes of a source that cpx accepts."""

# Where an expression ends that no bracket encloses.
ENDS = frozenset("; end else until then do of to downto".split())
OPENING, CLOSING = frozenset(("(", "[")), frozenset((")", "]"))


class Statement:
    """A statement: its kind, and the places of its first lexeme and of the one behind it. Its parts are lists of statements; a test is two places."""

    def __init__(self, kind, first):
        self.kind, self.first, self.last, self.parts, self.test, self.starts = kind, first, first, [], None, []

    def inner(self):
        """All statements in it, itself first."""
        yield self
        for part in self.parts:
            for it in part:
                yield from it.inner()


class Body:
    """A body: of which kind of system type it is part, whether it is a routine's, the statements, and the places of its first lexeme and of the one behind it."""

    def __init__(self, owner, is_routine, owner_number, first, statements, last):
        self.owner, self.is_routine, self.owner_number = owner, is_routine, owner_number
        self.first, self.statements, self.last = first, statements, last

    def all_statements(self):
        for it in self.statements:
            yield from it.inner()

    def all_lists(self):
        """All lists of statements in it, which are done one after the other."""
        yield self.statements
        for it in self.all_statements():
            yield from (part for part in it.parts if len(part) > 1)


class Reader:
    """Reads bodies from lexemes. A source that ends too early has no more bodies."""

    def __init__(self, lexemes):
        self.lexemes, self.at, self.bodies, self.owners = lexemes, 0, [], 0

    def text(self, offset=0):
        at = self.at + offset
        return self.lexemes[at].text if 0 <= at < len(self.lexemes) and self.lexemes[at].kind != "char" else ""

    def is_over(self):
        return self.at >= len(self.lexemes)

    def read_block(self, owner):
        """Reads what belongs to a program or a system type, to the end of its initial statement."""
        number = self.owners
        self.owners += 1
        while not self.is_over():
            word = self.text()
            if word in ("class", "monitor", "process"):
                self.at += 1
                self.read_block(word)
            elif word in ("procedure", "function"):
                while not self.is_over() and self.text() != "begin":
                    self.at += 1
                self.read_body(owner, True, number)
            elif word == "begin":
                self.read_body(owner, False, number)
                return
            else:
                self.at += 1

    def read_body(self, owner, is_routine, number):
        first = self.at
        self.at += 1
        statements = self.statements()
        self.at += 1
        self.bodies.append(Body(owner, is_routine, number, first, statements, self.at))

    def statements(self):
        """Reads statements up to what ends the list."""
        found = [self.statement()]
        while self.text() == ";":
            self.at += 1
            found.append(self.statement())
        return found

    def statement(self):
        word = self.text()
        made = Statement(word if word in READERS else "", self.at)
        if made.kind:
            self.at += 1
            READERS[made.kind](self, made)
        else:
            self.simple(made)
        made.last = self.at
        return made

    def simple(self, made):
        """Reads an assignment, a call, or nothing."""
        self.skip_expression(ENDS)
        words = [it.text for it in self.lexemes[made.first : self.at]]
        made.kind = "assignment" if ":=" in words else "call" if words else "nothing"

    def skip_expression(self, ends):
        depth = 0
        while not self.is_over() and not (depth == 0 and self.text() in ends):
            depth += (self.text() in OPENING) - (self.text() in CLOSING)
            self.at += 1

    def read_test(self, made):
        first = self.at
        self.skip_expression(ENDS)
        made.test = (first, self.at)
        self.at += self.text() in ("then", "do")

    def group(self, made):
        made.parts = [self.statements()]
        self.at += 1

    def choice(self, made):
        self.read_test(made)
        made.parts = [[self.statement()]]
        if self.text() == "else":
            self.at += 1
            made.parts.append([self.statement()])

    def case(self, made):
        self.skip_expression(ENDS)
        self.at += 1
        while not self.is_over() and self.text() != "end":
            self.skip_expression({":", "end"})
            self.at += 1
            made.parts.append([self.statement()])
            self.at += self.text() == ";"
        self.at += 1

    def loop(self, made):
        self.read_test(made)
        made.parts = [[self.statement()]]

    def repeat(self, made):
        made.parts = [self.statements()]
        self.at += 1
        self.read_test(made)

    def count(self, made):
        self.skip_expression({"do"})
        self.at += 1
        made.parts = [[self.statement()]]

    def init(self, made):
        """Reads what is initialised: for each the places of its first lexeme and of the one behind it."""
        while not self.is_over():
            first = self.at
            self.skip_expression(ENDS | {","})
            made.starts.append((first, self.at))
            if self.text() != ",":
                return
            self.at += 1


READERS = {"begin": Reader.group, "cycle": Reader.group, "if": Reader.choice, "case": Reader.case, "while": Reader.loop, "repeat": Reader.repeat,
           "for": Reader.count, "init": Reader.init}


def bodies_of(lexemes):
    """Returns the bodies of a program."""
    reader = Reader(lexemes)
    reader.read_block("program")
    return reader.bodies

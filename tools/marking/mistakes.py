"""The usual mistakes, each made once in a program, by its lexemes: comments are left as they are."""
from .lexemes import LEXEME, lexemes_of
from .statements import CLOSING, OPENING, bodies_of

RELATIONS = {"=": "<>", "<>": "=", "<": ">=", ">=": "<", ">": "<=", "<=": ">"}
NEAR = {"<": "<=", "<=": "<", ">": ">=", ">=": ">"}
JOINING = ("and", "or")
ON_QUEUES = ("delay", "continue", "empty")
# Characters of a change that are shown.
MOST = 60


class Mistake:
    """A mistake: its name, its line, and the source with it; for people also what is there and what stands in its place."""

    def __init__(self, name, line, source, old, new):
        self.name, self.line, self.source, self.old, self.new = name, line, source, shown(old), shown(new)

    def change(self):
        return f"{self.old}  ->  {self.new}" if self.new else self.old


def shown(code):
    """Returns some of a source on one line without comments, cut in the middle where it is long."""
    text = LEXEME.sub(lambda it: b" " if it.lastgroup == "comment" else it.group(), code)
    words = " ".join(text.decode("utf-8", "replace").split())
    return words if len(words) <= MOST else f"{words[: MOST // 2 - 2].rstrip()} .. {words[2 - MOST // 2 :].lstrip()}"


class Maker:
    """Makes the mistakes in a program that lie between two places of its source."""

    def __init__(self, source, begin, end):
        self.source, self.begin, self.end = source, begin, end
        self.lexemes = lexemes_of(source)
        self.bodies = bodies_of(self.lexemes)
        self.found, self.seen = [], set()

    def all(self):
        """Returns all mistakes in the order of their lines."""
        for body in self.bodies:
            for it in body.all_statements():
                self.of_statement(body, it)
            for it in body.all_lists():
                self.of_list(body, it)
            self.of_values(body)
        self.of_queues()
        self.of_entries()
        return sorted(self.found, key=lambda it: it.line)

    def text(self, first, last):
        """The bytes of the source from a lexeme to the one before another."""
        return self.source[self.lexemes[first].begin : self.lexemes[last - 1].end]

    def replace(self, name, first, last, new, words=None):
        """Adds the mistake that has something in place of some lexemes; nothing where these are none, or not all in between. Words, old and new, may be
        shown instead."""
        if first >= last:
            return
        begin, end = self.lexemes[first].begin, self.lexemes[last - 1].end
        source = self.source[:begin] + new + self.source[end:]
        if self.begin <= begin and end <= self.end and source not in self.seen:
            self.seen.add(source)
            self.found.append(Mistake(name, self.lexemes[first].line, source, *(words or (self.source[begin:end], new))))

    def exchange(self, name, one, other):
        """Adds the mistake in which two stretches of lexemes, one before the other, stand in each other's place."""
        (first, last), (second, behind) = one, other
        between = self.source[self.lexemes[last - 1].end : self.lexemes[second].begin]
        self.replace(name, first, behind, self.text(second, behind) + between + self.text(first, last))

    # One statement.

    def of_statement(self, body, it):
        if self.calls(it, "delay"):
            self.replace("a delay is left out", it.first, it.last, b"")
        if self.calls(it, "continue"):
            self.replace("a continue is left out", it.first, it.last, b"")
        if it.kind in ("if", "while"):
            for part in it.parts:
                if self.delays(part):
                    self.replace(f"the {it.kind} around a delay is left out", it.first, it.last, self.text(part[0].first, part[0].last))
        if it.test:
            self.of_test(*it.test)
        for one, other in zip(it.starts, it.starts[1:]):
            self.exchange("an init order is turned", one, other)
        for start in it.starts:
            self.of_arguments(body, start)

    def calls(self, it, name):
        return it.kind == "call" and self.lexemes[it.first].text == name and it.last - it.first > 1

    def delays(self, part):
        """Answers whether a statement delays, and that not within another test."""
        for it in part:
            if self.calls(it, "delay") or it.kind == "begin" and any(self.delays(inner) for inner in it.parts):
                return True
        return False

    def of_arguments(self, body, start):
        """Two components that stand side by side among what a component gets: the forks of a philosopher."""
        components = {self.lexemes[it].text for other in self.bodies for init in other.all_statements() for it, _ in init.starts if other.owner == body.owner}
        first, last = start
        opening = next((at for at in range(first, last) if self.lexemes[at].text == "("), None)
        if opening is None or self.lexemes[last - 1].text != ")":
            return
        arguments = self.split(opening + 1, last - 1, (",",))
        for one, other in zip(arguments, arguments[1:]):
            if all(it[0] < it[1] and self.lexemes[it[0]].text in components for it in (one, other)):
                self.exchange("a fork order is turned", one, other)

    # Tests.

    def of_test(self, first, last):
        """Turns each condition of a test, and moves each comparison by one."""
        for one, behind in self.split(first, last, JOINING):
            if one >= behind:
                continue
            relation = self.relation(one, behind)
            if self.is_enclosed(one, behind):
                self.of_test(one + 1, behind - 1)
            elif relation is not None:
                self.of_relation(one, relation, behind)
            elif self.lexemes[one].text == "not":
                self.replace("the test is turned", one, behind, self.text(one + 1, behind))
                if self.is_enclosed(one + 1, behind):
                    self.of_test(one + 2, behind - 1)
            else:
                self.replace("the test is turned", one, behind, b"not " + self.text(one, behind))

    def of_relation(self, first, at, last):
        sign = self.lexemes[at].text
        left, right = self.text(first, at), self.text(at + 1, last)
        if sign == "in":
            self.replace("the test is turned", first, last, b"not (" + self.text(first, last) + b")")
            return
        self.replace("the test is turned", first, last, b"%s %s %s" % (left, RELATIONS[sign].encode(), right))
        if sign in NEAR:
            self.replace("the test is by one", first, last, b"%s %s %s" % (left, NEAR[sign].encode(), right))
            return
        for change in (1, -1):
            self.replace("the test is by one", first, last, b"%s %s %s" % (left, sign.encode(), self.by_one(at + 1, last, change)))

    def by_one(self, first, last, change):
        """The text of a sum with one more, or one less."""
        only = self.lexemes[first]
        if last - first == 1 and only.kind == "number":
            return b"%d" % (int(only.text) + change)
        return self.text(first, last) + (b" + 1" if change > 0 else b" - 1")

    def relation(self, first, last):
        """The place of the comparison that no bracket encloses, none if there is none."""
        for at, depth in self.depths(first, last):
            if depth == 0 and self.lexemes[at].kind in ("sign", "word") and (self.lexemes[at].text in RELATIONS or self.lexemes[at].text == "in"):
                return at
        return None

    def is_enclosed(self, first, last):
        """Answers whether a pair of brackets is around all of it."""
        if self.lexemes[first].text != "(" or first >= last:
            return False
        return all(depth > 0 for at, depth in self.depths(first, last) if at > first and at < last - 1) and self.lexemes[last - 1].text == ")"

    def depths(self, first, last):
        """Each lexeme with the number of brackets around it; a bracket counts as around itself."""
        depth = 0
        for at in range(first, last):
            is_sign = self.lexemes[at].kind == "sign"
            depth += is_sign and self.lexemes[at].text in OPENING
            yield at, depth
            depth -= is_sign and self.lexemes[at].text in CLOSING

    def split(self, first, last, signs):
        """The stretches between some words that no bracket encloses."""
        found, begin = [], first
        for at, depth in self.depths(first, last):
            if depth == 0 and self.lexemes[at].kind != "char" and self.lexemes[at].text in signs:
                found.append((begin, at))
                begin = at + 1
        return [*found, (begin, last)]

    # Statements one after the other.

    def of_list(self, body, statements):
        for one, other in zip(statements, statements[1:]):
            if one.kind == other.kind == "init":
                self.exchange("an init order is turned", (one.first, one.last), (other.first, other.last))
            if self.component(one) and self.component(other) and self.component(one) != self.component(other):
                self.exchange("a fork order is turned", (one.first, one.last), (other.first, other.last))
        for at, it in enumerate(statements):
            if self.continues(it):
                self.of_early_continue(statements[:at], it)

    def of_early_continue(self, before, it):
        """A continue that stands before the change of the variables."""
        for one in reversed(before):
            if one.kind != "assignment":
                return
            changed = self.source[self.lexemes[one.first].begin : self.lexemes[before[-1].last - 1].end]
            self.replace("continue before the change", one.first, it.last, self.text(it.first, it.last) + b"; " + changed)

    def continues(self, it):
        """Answers whether a statement continues, or does where a test holds, and has no delay."""
        inner = list(it.inner())
        return it.kind in ("call", "if") and any(self.calls(one, "continue") for one in inner) and not any(self.calls(one, "delay") for one in inner)

    def component(self, it):
        """The text of the component whose entry is called, none where none is."""
        if it.kind != "call":
            return None
        points = [at for at, depth in self.depths(it.first, it.last) if depth == 0 and self.lexemes[at].text == "."]
        return self.text(it.first, points[-1]) if points else None

    def of_values(self, body):
        """Initial values: all assignments of a monitor's or a class's initial statement, and those with which another one begins."""
        if body.is_routine:
            return
        for it in body.statements:
            if it.kind in ("assignment", "for") and all(inner.kind in ("assignment", "for", "begin") for inner in it.inner()):
                self.replace("an initial value is left out", it.first, it.last, b"")
            elif body.owner in ("process", "program"):
                return

    # Queues and entries.

    def of_queues(self):
        places = {}
        for body in self.bodies:
            for at in range(body.first, body.last - 2):
                if self.lexemes[at].text in ON_QUEUES and self.lexemes[at].kind == "name" and self.lexemes[at + 1].text == "(":
                    places.setdefault(body.owner_number, []).append((body, at + 2))
        for those in places.values():
            names = sorted({self.lexemes[at].text for _, at in those})
            for _, at in those:
                for other in names:
                    if other != self.lexemes[at].text:
                        self.of_queue(at, other.encode())
            for body in self.bodies:
                self.exchange_queues([at for it, at in those if it is body], names)

    def of_queue(self, at, other):
        """Another queue at one place; the call is shown whole."""
        last = next((it for it in range(at, len(self.lexemes)) if self.lexemes[it].text == ")"), at) + 1
        new = self.text(at - 2, at) + other + self.source[self.lexemes[at].end : self.lexemes[last - 1].end]
        self.replace("two queues are exchanged", at - 2, last, new)

    def exchange_queues(self, places, names):
        """Two queues that stand in each other's place in all of a routine."""
        for number, one in enumerate(names):
            for other in names[number + 1 :]:
                those = sorted(at for at in places if self.lexemes[at].text in (one, other))
                if len({self.lexemes[at].text for at in those}) == 2:
                    self.exchange_names(those, {one: other.encode(), other: one.encode()})

    def exchange_names(self, places, others):
        new, begin, words = b"", self.lexemes[places[0]].begin, []
        for at in places:
            it = self.lexemes[at]
            new += self.source[begin : it.begin] + others[it.text]
            begin = it.end
            words.append((self.text(at - 2, at + 1) + b")", self.text(at - 2, at) + others[it.text] + b")"))
        old_words, new_words = (b" .. ".join(it) for it in zip(*words))
        self.replace("two queues are exchanged", places[0], places[-1] + 1, new, (old_words, new_words))

    def of_entries(self):
        for at, it in enumerate(self.lexemes[:-1]):
            if it.text == "entry" and it.kind == "word" and at > 0:
                self.replace("the word entry is left out", at - 1, at + 2, self.text(at - 1, at) + b" " + self.text(at + 1, at + 2))

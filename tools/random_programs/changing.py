"""Changes of a right program that most often make it break a rule: of any token, and such as aim at one rule."""
from random_programs.chooser import Chooser
from random_programs.put_in import DECLARATIONS, ROUTINES, STATEMENTS
from random_programs.tokens import INNER, PREDECLARED, RESERVED, is_name, laid_out, strewn, tokens_of

NEAR = 50
ARRAY = ("array", "[", "1", "..", "2", "]", "of")
ODD_TOKENS = ["99999", "32768", "'''", "''", "'ab'", "'(:128:)'", "/", "{", "\x0c", "with", "univ", "program", "x" * 41, '"', "'", "..", "(.", ".)", "&", ":", "=", "*)",
              '"(* assert', '"(* invariant']
# How the names of a sort stand in a source: what there is, and where the name is from its beginning.
ROLES = {
    "FUNCTION": [(["function"], 1), (["function", "entry"], 2)],
    "PROCEDURE": [(["procedure"], 1), (["procedure", "entry"], 2)],
    "ENTRY": [(["entry"], 1)],
    "QUEUE": [([":", "queue"], -1)],
    "PARAMETER": [(["("], 1), (["(", "var"], 2)],
    **{kind.upper(): [(["=", kind], -1)] for kind in ("class", "monitor", "process")},
}


class Changer:
    def __init__(self, tokens, chooser):
        self.tokens, self.chooser = list(tokens), chooser
        self.names = sorted({it.lower() for it in tokens if is_name(it)}) or ["x"]

    def name(self, at=None):
        """A name of the program, most often one that stands near."""
        near = [] if at is None else [it.lower() for it in self.tokens[max(at - NEAR, 0):at + NEAR] if is_name(it)]
        if near and self.chooser.chance(0.7):
            return self.chooser.among(near)
        return self.chooser.among(self.names if self.chooser.chance(0.85) else sorted(PREDECLARED))

    def places(self):
        """Where parts may stand, and where routines, as a rule: (number of a token, whether it is of a routine's block, word)."""
        depth, round_ones, is_routine = 0, 0, False
        for number, token in enumerate(self.tokens):
            word = token.lower()
            if depth == 0 and round_ones == 0 and word in ("var", "const", "type", "procedure", "function", "begin"):
                yield number, is_routine, word
                is_routine = word in ("procedure", "function") or is_routine and word != "begin"
            depth = max(depth + (word in INNER) - (word in ("end", "until")), 0)
            round_ones += (word == "(") - (word == ")")

    def at(self, test=lambda token: True):
        found = [number for number, token in enumerate(self.tokens) if test(token)]
        return self.chooser.among(found) if found else None

    # -- changes of any token

    def left_out(self):
        del self.tokens[self.at()]

    def doubled(self):
        at = self.at()
        self.tokens.insert(at, self.tokens[at])

    def exchanged(self):
        at = self.at()
        other = min(at + self.chooser.pick(1, 1, 2), len(self.tokens) - 1)
        self.tokens[at], self.tokens[other] = self.tokens[other], self.tokens[at]

    def put_in(self):
        token = self.chooser.among(ODD_TOKENS) if self.chooser.chance(0.4) else self.chooser.among(self.tokens) if self.chooser.chance(0.5) else self.chooser.among(sorted(RESERVED))
        self.tokens.insert(self.at(), token)

    def replaced(self):
        self.tokens[self.at()] = self.chooser.among(self.tokens + ODD_TOKENS[:6])

    def cut_off(self):
        del self.tokens[self.at():]

    def run_left_out(self):
        at = self.at()
        del self.tokens[at:at + self.chooser.number(2, 6)]

    def moved(self):
        """A declaration, a statement or a routine stands elsewhere: what lies between two semicolons."""
        semicolons = [number for number, token in enumerate(self.tokens) if token == ";"]
        if len(semicolons) < 4:
            return
        first = self.chooser.number(0, len(semicolons) - 2)
        begin, end = semicolons[first] + 1, semicolons[min(first + self.chooser.pick(1, 1, 1, 2), len(semicolons) - 1)] + 1
        piece = self.tokens[begin:end]
        del self.tokens[begin:end]
        place = self.chooser.among([number + 1 for number, token in enumerate(self.tokens) if token == ";"] or [0])
        self.tokens[place:place] = piece

    # -- changes of names and types

    def renamed(self):
        at = self.at(is_name)
        if at is not None:
            self.tokens[at] = self.name(at)

    def misspelt(self):
        at = self.at(is_name)
        if at is not None:
            self.tokens[at] += "q"

    def of_another_type(self):
        at = self.at(lambda token: token.lower() in ("integer", "boolean", "char", "queue"))
        if at is not None:
            self.tokens[at] = self.chooser.pick("integer", "boolean", "char", "queue", self.name())

    def of_another_kind(self):
        at = self.at(lambda token: token.lower() in ("class", "monitor", "process", "procedure", "function", "entry", "var"))
        if at is None:
            return
        word = self.tokens[at].lower()
        others = {"class": ["monitor", "process"], "monitor": ["class", "process"], "process": ["class", "monitor"], "procedure": ["function"], "function": ["procedure"]}
        self.tokens[at:at + 1] = [self.chooser.among(others[word])] if word in others else []

    def without_a_right(self):
        """A parameter of a system type or a routine is left out, or an argument."""
        at = self.at(lambda token: token in ("(", ","))
        if at is None:
            return
        end = next((number for number in range(at + 1, len(self.tokens)) if self.tokens[number] in (",", ")", ";")), at)
        is_first = self.tokens[at] == "("
        is_only = is_first and self.tokens[end:end + 1] == [")"]
        del self.tokens[at + (is_first and not is_only):end + is_first]

    # -- what is put in, to break a rule

    def filled(self, text, at):
        return [self.of_role(token, at) for token in tokens_of(text)]

    def of_role(self, token, at):
        """A word of a text to be put in stands for any name, or for one of its sort, most often one that is declared shortly before."""
        if token in ROLES or token == "COMPONENT":
            words = [it.lower() for it in self.tokens]
            of_systems = [it.lower() for it in self.systems_before(len(words))]
            roles = ROLES.get(token) or [([":", *array, system], -1) for system in of_systems for array in ((), ARRAY)]
            found = [number + offset for number in range(1, len(words) - 2) for follow, offset in roles
                     if words[number:number + len(follow)] == follow and is_name(words[number + offset])]
            near = [number for number in found if number < at][-2:] or found[:1]
            return self.chooser.among([words[number] for number in near] or self.names)
        return self.name(at) if token == "NAME" else token

    def with_a_statement(self):
        at = self.at(lambda token: token.lower() in ("begin", "cycle"))
        if at is not None:
            self.tokens[at + 1:at + 1] = [*self.filled(self.chooser.among(STATEMENTS), at), ";"]

    def put_before(self, places, texts):
        if places:
            at = self.chooser.among(places)
            self.tokens[at:at] = self.filled(self.chooser.among(texts), at)

    def with_a_declaration(self):
        self.put_before([at for at, _, word in self.places() if word in ("var", "const")], DECLARATIONS)

    def with_a_routine(self):
        self.put_before([at for at, is_of_routine, word in self.places() if word in ("procedure", "function", "begin") and not is_of_routine], ROUTINES)

    def with_a_parameter(self):
        at = self.at(lambda token: token.lower() in ("class", "monitor", "process"))
        if at is None:
            return
        has_some = self.tokens[at + 1:at + 2] == ["("]
        systems = self.systems_before(at - 2)
        made = ["z7", ":", self.chooser.pick("queue", "integer", self.chooser.among(systems)) if systems and self.chooser.chance(0.2) else self.chooser.among(systems) if systems and self.chooser.chance(0.6) else self.name(at)]
        self.tokens[at + 1:at + 1] = ["(", *made, ";"] if has_some else ["(", *made, ")"]
        if has_some:
            del self.tokens[at + 1 + len(made) + 2]

    def systems_before(self, at):
        """The names of the system types that are defined before a place."""
        return [self.tokens[number - 2] for number in range(2, at) if self.tokens[number].lower() in ("class", "monitor", "process")]

    def with_a_component(self):
        at = self.at(lambda token: token.lower() == "var")
        systems = self.systems_before(at or 0)
        if systems:
            text = self.chooser.pick("z6: SYSTEM;", "z6: array [1..2] of SYSTEM;", "z6: record a: SYSTEM end;", "z6: array [1..17] of SYSTEM;",
                                     "z6: array [1..65] of SYSTEM;")
            self.tokens[at + 1:at + 1] = [self.chooser.among(systems) if token == "SYSTEM" else token for token in tokens_of(text)]

    def too_deep(self):
        at = self.at(lambda token: token.lower() in ("begin", ":="))
        if at is not None:
            self.tokens[at + 1:at + 1] = (["begin"] if self.tokens[at].lower() == "begin" else ["not"]) * self.chooser.number(40, 55)


CHANGES = (
    (1, "left_out"), (0.6, "doubled"), (0.6, "exchanged"), (1, "put_in"), (1, "replaced"), (0.2, "cut_off"), (0.3, "run_left_out"), (1, "moved"), (4, "renamed"),
    (1, "misspelt"), (3, "of_another_type"), (2, "of_another_kind"), (2, "without_a_right"), (12, "with_a_statement"), (8, "with_a_declaration"), (7, "with_a_routine"),
    (4, "with_a_parameter"), (3, "with_a_component"), (0.3, "too_deep"))


def changed(source, seed):
    """The source with one change, or a few, and what they were."""
    chooser = Chooser(f"change {seed}")
    changer, made = Changer(tokens_of(source), chooser), []
    for _ in range(chooser.pick(1, 1, 1, 1, 2, 3)):
        if changer.tokens:
            name = chooser.weighed(*CHANGES)
            getattr(changer, name)()
            made.append(name)
    return strewn(changer.tokens, chooser) if chooser.chance(0.4) and changer.tokens else laid_out(changer.tokens), made

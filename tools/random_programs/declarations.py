"""Random constants, types and variables of a program, and the parameters and variables of its blocks."""
from random_programs.kinds import BOOLEAN, CHAR, INTEGER, Array, Ordinal, Place, Record, SetOf

NAMES = ("red", "green", "blue", "low", "high")


class Declarations:
    """The types that have names are kept, each once."""

    def __init__(self, chooser, expressions):
        self.chooser, self.expressions = chooser, expressions
        self.types, self.written = [INTEGER, INTEGER, BOOLEAN], 0

    def named(self, name, text, type):
        self.types.append(type)
        return f"{name} = {text};"

    # -- of the program

    def constants(self):
        made = []
        for number in range(self.chooser.pick(0, 1, 1, 2)):
            name, (text, base) = f"k{number}", self.constant()
            self.expressions.constants.append((name, base))
            made.append(f"{name} = {text};")
        return f"const {' '.join(made)}" if made else ""

    def constant(self):
        self.chooser.use("const")
        before = [name for name, base in self.expressions.constants if base == "integer"]
        if before and self.chooser.chance(0.3):
            return self.chooser.pick("", "-", "+") + before[0], "integer"
        return self.chooser.pick(("1", "integer"), ("2", "integer"), ("-1", "integer"), ("+3", "integer"), ("'c'", "char"), ("true", "boolean"), ("'(:39:)'", "char"))

    def type_part(self):
        makers = self.chooser.some([self.enumeration, self.other_enumeration, self.subrange, self.characters, self.set, self.array, self.record, self.other_name], 4)
        return [make() for make in makers]

    def enumeration(self):
        self.chooser.use("enumeration")
        names = NAMES[:self.chooser.number(2, 4)]
        self.expressions.enumerations["colour"] = names
        whole = Ordinal("colour", "colour", 0, len(names) - 1)
        made = self.named("colour", f"({', '.join(names)})", whole)
        if self.chooser.chance(0.3):
            self.chooser.use("subrange of an enumeration")
            made += " " + self.named("shade", f"{names[0]}..{names[1]}", Ordinal("shade", "colour", 0, 1))
        return made

    def other_enumeration(self):
        """Of constants that are spelled as values of another type might be."""
        self.chooser.use("second enumeration")
        self.expressions.enumerations["shape"] = ("round", "flat")
        return self.named("shape", "(round, flat)", Ordinal("shape", "shape", 0, 1))

    def subrange(self):
        self.chooser.use("subrange")
        low, high = self.chooser.pick((0, 1), (0, 2), (1, 3), (-1, 1))
        return self.named("span", f"{low}..{high}", Ordinal("span", "integer", low, high))

    def characters(self):
        self.chooser.use("subrange of char")
        return self.named("letter", "'a'..'c'", Ordinal("letter", "char", 97, 99))

    def other_name(self):
        self.chooser.use("type with a second name")
        return self.named("truth", "boolean", Ordinal("truth", "boolean", 0, 1))

    def set(self):
        self.chooser.use("set type")
        of = self.chooser.among([it for it in self.types if isinstance(it, Ordinal) and it.low >= 0] or [BOOLEAN])
        return self.named("group", f"set of {of.text}", SetOf("group", of))

    def array(self):
        self.chooser.use("array type")
        index = self.chooser.among([it for it in self.types if isinstance(it, Ordinal) and it.high - it.low < 8])
        return self.named("row", f"array [{index.text}] of {(of := self.simple()).text}", Array("row", index, of))

    def record(self):
        self.chooser.use("record type")
        first, second = self.simple(), self.chooser.among([*self.types, CHAR])
        return self.named("pair", f"record x: {first.text}; y: {second.text}{self.chooser.pick('', ';')} end", Record("pair", (("x", first), ("y", second))))

    def simple(self):
        return self.chooser.among([it for it in self.types if isinstance(it, Ordinal)])

    # -- of blocks

    def any_type(self):
        """A type as it may be written for a variable: by its name, or where it is used."""
        if self.chooser.chance(0.12):
            self.written += 1
            row = Array("array [0..1] of boolean", Ordinal("0..1", "integer", 0, 1), BOOLEAN, self.written)
            return self.chooser.pick(Ordinal("0..2", "integer", 0, 2), Array("array [1..2] of integer", Ordinal("1..2", "integer", 1, 2), INTEGER, self.written),
                                     SetOf("set of boolean", BOOLEAN), CHAR, Record("record p: integer end", (("p", INTEGER),), self.written),
                                     Array("array [boolean] of array [0..1] of boolean", BOOLEAN, row, self.written))
        return self.chooser.among(self.types)

    def variables(self, prefix, most):
        """Text and places."""
        places = [Place(f"{prefix}{number}", self.any_type()) for number in range(self.chooser.number(0, most))]
        return "".join(f"{it.text}: {it.type.text}; " for it in places), places

    def routine_parameters(self, prefix, is_function):
        """(mode, name, type) of each."""
        made = []
        for number in range(self.chooser.pick(0, 0, 0, 1, 1, 2)):
            mode = "var" if not is_function and self.chooser.chance(0.35) else ""
            of = self.chooser.among([it for it in self.types if mode or isinstance(it, Ordinal)] if self.chooser.chance(0.8) else self.types)
            self.chooser.use(f"parameter {mode or 'by value'}")
            made.append((mode, f"{prefix}{number}", of))
        return tuple(made)


def written(parameters):
    return f"({'; '.join(f'{mode} {name}: {of.text}' for mode, name, of in parameters)})" if parameters else ""

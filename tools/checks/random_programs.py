"""Random programs with monitors, for comparing two searches: monitors that call others, classes in monitors and processes, calls and displays in initial
statements, `init` shuffled, left out and twice, run errors, processes that end, go on for ever, or spin. Each seed is one program."""
import random

ENTRIES = ("one", "two", "three")


class Maker:
    def __init__(self, seed):
        self.random = random.Random(seed)
        self.monitors = self.random.randint(1, 3)
        self.processes = self.random.randint(2, 3)
        self.has_class = self.chance(0.3)

    def chance(self, part):
        return self.random.random() < part

    def pick(self, *things):
        return self.random.choice(things)

    def block(self, statement, most):
        return "; ".join(statement() for _ in range(self.random.randint(1, most)))

    def value(self, variable):
        return self.pick("0", "1", "2", variable, variable, f"{variable} + 1")

    def test(self, variable):
        return f"{variable} {self.pick('=', '<>', '<')} {self.pick('0', '1', '2')}"

    def changed(self, variable):
        return f"{variable} := ({variable} + {self.pick('1', '2')}) mod {self.pick('2', '3')}"

    def shown(self, variable):
        return self.pick(f"display({variable})", f"display({variable})", f"display({self.test(variable)})", f"display(2 div {variable})",
                         "display(blue)", "display('b')")

    def call(self, names):
        return f"{self.pick(*names)}.{self.pick(*ENTRIES)}"

    def own_class(self):
        return f"b.put({self.value('x')})" if self.chance(0.6) else "x := b.got"

    # -- what an entry of monitor number `at` does; it may call the monitors before it, which are its parameters

    def in_entry(self, at, boxed):
        kind = self.random.random()
        if kind < 0.25:
            return self.changed("x")
        if kind < 0.45:
            return self.pick("delay(q)", f"if {self.test('x')} then delay(q)", "if empty(r) then delay(r)", f"if {self.test('x')} then delay(r)")
        if kind < 0.62:
            return self.pick("continue(q)", "continue(r)", f"if {self.test('x')} then continue(q)")
        if kind < 0.72:
            return self.shown("x")
        if kind < 0.85 and at:
            return self.call([f"m{k}" for k in range(at)])
        if kind < 0.92 and boxed:
            return self.own_class()
        return f"if {self.test('x')} then begin {self.changed('x')} end else {self.pick('continue(q)', self.changed('x'))}"

    def in_first(self, at):
        """What the initial statement of a monitor does after it has set its variable."""
        if at and self.chance(0.25):
            return "; " + self.call([f"m{k}" for k in range(at)])
        return "; " + self.shown("x") if self.chance(0.1) else ""

    def monitor(self, at):
        boxed = self.has_class and self.chance(0.5)
        names = ", ".join(f"m{k}" for k in range(at))
        types = "; ".join(f"m{k}: t{k}" for k in range(at))
        entries = "\n".join(f"  procedure entry {name};\n  begin {self.block(lambda: self.in_entry(at, boxed), 3)} end;" for name in ENTRIES)
        made = f"init b; x := {self.pick('0', '1')}" if boxed and self.chance(0.9) else f"x := {self.pick('0', '1')}"
        head = f"t{at} = monitor({types});" if names else f"t{at} = monitor;"
        return f"{head}\n  var x: {self.pick('integer', 'integer', '0..2')}; q, r: queue;{' b: box;' if boxed else ''}\n{entries}\nbegin {made}{self.in_first(at)} end;"

    # -- what a process does

    def in_process(self, boxed):
        kind = self.random.random()
        if kind < 0.62:
            return self.call([f"m{k}" for k in range(self.monitors)])
        if kind < 0.72:
            return self.shown("x")
        if kind < 0.82:
            return self.changed("x")
        if kind < 0.88 and boxed:
            return self.own_class()
        if kind < 0.94:
            return f"if {self.test('x')} then {self.call([f'm{k}' for k in range(self.monitors)])}"
        return f"for i := 1 to 2 do {self.call([f'm{k}' for k in range(self.monitors)])}"

    def process(self, at):
        boxed = self.has_class and self.chance(0.4)
        types = "; ".join(f"m{k}: t{k}" for k in range(self.monitors))
        body = self.block(lambda: self.in_process(boxed), 4)
        if self.chance(0.45):
            body = f"cycle {body} end"
        elif self.chance(0.06):
            body = f"{body}; cycle {self.changed('x')} end"
        head = "init b; x := 0" if boxed and self.chance(0.9) else "x := 0"
        return f"p{at} = process({types});\n  var x, i: integer;{' b: box;' if boxed else ''}\nbegin {head}; {body} end;"

    def starts(self):
        """The `init`s: in order, or shuffled, some of them left out, some twice; and calls of the program itself."""
        given = ", ".join(f"m{k}" for k in range(self.monitors))
        monitors = [f"m{k}" + (f"({', '.join(f'm{j}' for j in range(k))})" if k else "") for k in range(self.monitors)]
        processes = [f"{name}({given})" for k in range(self.processes) for name in [f"a{k}"]]
        wanted = monitors + processes
        if self.chance(0.35):
            self.random.shuffle(wanted)
        if self.chance(0.12):
            wanted.remove(self.pick(*wanted))
        if self.chance(0.08):
            wanted.insert(self.random.randint(0, len(wanted)), self.pick(*wanted))
        lines = [f"init {start}" for start in wanted]
        for _ in range(self.pick(0, 0, 0, 1, 2)):
            lines.insert(self.random.randint(len(lines) // 2, len(lines)), self.pick(self.call([f"m{k}" for k in range(self.monitors)]), "display(1)"))
        return ";\n  ".join(lines)

    def program(self):
        box = "box = class;\n  var v: integer;\n  procedure entry put(k: integer);\n  begin v := k mod 3 end;\n  function entry got: integer;\n  begin got := v end;\nbegin v := 0 end;"
        types = ["colour = (red, blue);"] + [box] * self.has_class
        types += [self.monitor(k) for k in range(self.monitors)] + [self.process(k) for k in range(self.processes)]
        variables = "".join(f"\n  m{k}: t{k};" for k in range(self.monitors)) + "".join(f"\n  a{k}: p{k};" for k in range(self.processes))
        return "type\n" + "\n".join(types) + f"\nvar{variables}\nbegin\n  {self.starts()}\nend.\n"


def program(seed):
    return Maker(seed).program()


def options(seed):
    """Mostly the usual limit of steps, else a small one."""
    chooser = random.Random(f"steps {seed}")
    return [] if chooser.random() < 0.7 else ["--steps", str(chooser.randint(3, 40))]

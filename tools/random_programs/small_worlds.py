"""Random programs of few states, in which processes come to wait for each other: one monitor or two, with a truth value or a counter, and processes that call them."""

TESTS = {"b": ("b", "not b"), "n": ("n = 0", "n > 0", "n = 2", "n < 2")}
CHANGES = {"b": ("b := true", "b := false", "b := not b", "display(i)"),
           "n": ("n := (n + 1) mod 3", "n := 0", "n := 1", "if n < 2 then n := n + 1", "if n > 0 then n := n - 1", "n := n + 1", "display(i)")}


class SmallWorld:
    """Most often each process has a queue of its own, by its index, so that no queue is in use when it waits."""

    def __init__(self, chooser):
        self.chooser = chooser
        self.has_inner = chooser.chance(0.25)
        self.has_own_queues = chooser.chance(0.7)
        self.variables = chooser.pick("b", "b", "n", "bn")
        self.count = chooser.pick(2, 2, 3, 3, 3, 4)
        self.entries = [f"e{number}" for number in range(chooser.number(1, 3))]
        self.share_of_delays, self.share_of_signals = chooser.pick(0.25, 0.4, 0.6), chooser.pick(0.4, 0.7, 0.9)

    def test(self):
        test = self.chooser.among(TESTS[self.chooser.among(self.variables)])
        return f"empty({self.queue()})" if self.chooser.chance(0.1) else test

    def queue(self):
        return f"w[{self.chooser.number(1, self.count)}]" if self.has_own_queues else self.chooser.pick("q", "q", "s")

    def change(self):
        return self.chooser.among(CHANGES[self.chooser.among(self.variables)])

    def delay(self):
        self.chooser.use("delay")
        queue = "w[i]" if self.has_own_queues else self.queue()
        test = self.test() if self.has_own_queues or self.chooser.chance(0.3) else f"({self.test()}) and empty({queue})"
        return self.chooser.weighed((4, f"if {test} then delay({queue})"), (4, f"while {test} do delay({queue})"), (1, f"delay({queue})"))

    def signal(self):
        self.chooser.use("continue")
        queue = self.queue()
        either = f"if empty({queue}) then continue({self.queue()}) else continue({queue})"
        return self.chooser.weighed((4, f"continue({queue})"), (2, f"if {self.test()} then continue({queue})"), (2, either))

    def body(self, has_inner):
        """Most often: wait for something, change something, wake somebody."""
        parts = [self.delay()] * self.chooser.chance(self.share_of_delays) + [self.change()] * self.chooser.chance(0.9)
        if has_inner:
            parts.insert(self.chooser.number(0, len(parts)), f"o.{self.chooser.among(self.entries)}(i)")
        if self.chooser.chance(0.1):
            parts.append(self.delay())
        return "; ".join(parts + [self.signal()] * self.chooser.chance(self.share_of_signals))

    def monitor(self, name, parameter):
        self.chooser.use("monitor")
        entries = "".join(f"procedure entry {entry}(i: place); begin {self.body(parameter and self.chooser.chance(0.5))} end; " for entry in self.entries)
        claim = self.chooser.pick("n >= 0", "n < 2", "not b", "b or (n = 0)", "n <> 1")
        invariant = f'"(* invariant {claim} *)" ' if self.chooser.chance(0.2) else ""
        return f"{name} = monitor{parameter}; var b: boolean; n: 0..2; q, s: queue; w: array [place] of queue; {invariant}{entries}begin {self.chooser.pick('', 'b := true', 'n := 1')} end; "

    def calls(self, most):
        return "; ".join(f"m.{self.chooser.among(self.entries)}(i)" for _ in range(self.chooser.number(1, most)))

    def process(self, name):
        self.chooser.use("process")
        body = f"cycle {self.calls(2)} end" if self.chooser.chance(0.75) else self.calls(3)
        return f"{name} = process(m: outer; i: place); begin {self.calls(1) + '; ' if self.chooser.chance(0.2) else ''}{body} end; "

    def source(self):
        self.chooser.use("small world")
        types = [f"p{number}" for number in range(min(self.count, self.chooser.number(1, 3)))]
        made = [(f"a{number}", types[number] if number < len(types) else self.chooser.among(types)) for number in range(self.count)]
        inner = self.monitor("inner", "") if self.has_inner else ""
        systems = inner + self.monitor("outer", "(o: inner)" if inner else "") + "".join(map(self.process, types))
        starts = ["o"] * bool(inner) + [f"m{'(o)' * bool(inner)}"] + [f"{name}(m, {number})" for number, (name, _) in enumerate(made, 1)]
        components = ("o: inner; " if inner else "") + "m: outer; " + "".join(f"{name}: {type}; " for name, type in made)
        return f"type place = 1..{self.count}; {systems}var {components}begin init {', '.join(starts)} end."

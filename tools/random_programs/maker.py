"""Random programs that keep the rules. Each seed is one program; what it uses is counted."""
from random_programs.chooser import Chooser
from random_programs.declarations import Declarations, written
from random_programs.expressions import Expressions
from random_programs.kinds import INTEGER, Here, Ordinal, Place, Routine, System
from random_programs.small_worlds import SmallWorld
from random_programs.statements import Statements
from random_programs.tokens import laid_out, strewn, tokens_of

SHARE_OF_SMALL = 0.45
QUEUE_INDEX = Ordinal("1..2", "integer", 1, 2)


class Maker:
    def __init__(self, seed):
        self.chooser = Chooser(seed)
        self.expressions = Expressions(self.chooser)
        self.statements = Statements(self.chooser, self.expressions)
        self.declarations = Declarations(self.chooser, self.expressions)
        self.systems, self.hidden, self.declared = [], frozenset(), {}
        self.names = 0
        self.is_endless = self.chooser.chance(0.45)
        self.has_many = self.chooser.chance(0.02)
        self.share_of_invariants = self.chooser.pick(0, 0, 0.1, 0.4)

    def of_kind(self, *kinds):
        return [it for it in self.systems if it.kind in kinds]

    # -- routines

    def routine(self, here, is_entry, is_function):
        """The text of a routine, and what it is called by."""
        self.names += 1
        name = f"r{self.names}"
        parameters = self.declarations.routine_parameters("a", is_function)
        result = self.declarations.simple() if is_function else None
        text, places = self.declarations.variables("l", self.chooser.pick(0, 0, 1))
        hidden, hiding, more = self.hiding(here)
        counters = [Place("i", INTEGER)] if self.chooser.chance(0.4) else []
        arguments = [Place(name, of, mode == "var") for mode, name, of in parameters]
        shadowed = {it.text.split("[")[0] for it in arguments + places + counters + hiding}
        inner = Here(here.kind, "function" if is_function else "procedure", is_entry,
                     places=[it for it in here.places if it.text not in shadowed] + arguments + places + hiding, counters=counters,
                     queues=here.queues, components=here.components, routines=list(here.routines), hidden=here.hidden | hidden, result=(name, result))
        body = self.statements.entry(inner) if inner.may_continue() and inner.may_delay() and self.chooser.chance(0.7) else self.statements.block(inner, 3)
        if is_function:
            body += f"; {self.statements.result(inner)}"
        variables = text + more + ("i: integer; " if counters else "")
        word = "function" if is_function else "procedure"
        self.chooser.use(f"{word}{' entry' if is_entry else ''}")
        text = (f"{word} {'entry ' if is_entry else ''}{name}{written(parameters)}{': ' + result.text if result else ''}; "
                f"{'var ' + variables if variables else ''}begin {body} end; ")
        waits = "delay(" in text or any(it.waits and it.name in tokens_of(text) for it in here.routines)
        return text, Routine(name, parameters, result, is_entry, waits)

    def hiding(self, here):
        """Now and then a local variable has the name of something outside."""
        if not self.chooser.chance(0.08):
            return frozenset(), [], ""
        name = self.chooser.among(["abs", "succ", "display", "k0", "red", "ord", "empty", "chr", "true", *(it.text for it in here.places)])
        self.chooser.use("name that hides another")
        return frozenset([name]), [Place(name, INTEGER)], f"{name}: integer; "

    def routines(self, here, least, most, entries=True):
        text = ""
        for number in range(self.chooser.number(least, most)):
            is_entry = entries and (number < least or self.chooser.chance(0.7))
            made, routine = self.routine(here, is_entry, self.chooser.chance(0.25))
            text += made
            here.routines.append(routine)
        return text

    # -- system types

    def parameters(self, kinds, most):
        """Parameters of a system type: values and components."""
        self.names += 1
        made = [(f"v{self.names}", self.declarations.simple())] if self.chooser.chance(0.3) else []
        systems = self.of_kind(*kinds)
        for number in range(self.chooser.number(0, most) if systems else 0):
            system = self.chooser.among(systems)
            made.append((f"c{self.names}{number}", system))
            self.chooser.use(f"{system.kind} as a parameter")
        return made

    def own_components(self, kinds, most, prefix):
        """Components that the block declares and starts itself: text, (place, system, index) and their starts; arguments come later."""
        made = []
        for system in self.chooser.some(self.of_kind(*kinds), most):
            self.names += 1
            index = QUEUE_INDEX if self.chooser.chance(0.2) else None
            made.append((f"{prefix}{self.names}", system, index))
            self.chooser.use(f"{system.kind} of a block's own")
        text = "".join(f"{name}: {'array [1..2] of ' if index else ''}{system.name}; " for name, system, index in made)
        return text, made

    def starts(self, here, made):
        """Components that are started, with arguments for each."""
        starts, known = [], [(text, system, index) for text, system, index in here.components if (text, system, index) not in made]
        for name, system, index in made:
            for place in [name] if index is None else [f"{name}[1]", f"{name}[2]"]:
                arguments = [self.argument(here, known, of) for _, of in system.parameters]
                if None in arguments:
                    return None
                starts.append(place + (f"({', '.join(arguments)})" if arguments else ""))
            known.append((name, system, index))
        return starts

    def argument(self, here, known, of):
        if not isinstance(of, System):
            return self.expressions.fitting(here.quietly(), of, 1)
        fitting = [f"{text}[{self.chooser.pick(1, 2)}]" if index else text for text, system, index in known if system is of]
        return self.chooser.among(fitting) if fitting else None

    def system(self, kind):
        maker = {"class": self.class_type, "monitor": self.monitor_type, "process": self.process_type}[kind]
        self.chooser.use(kind)
        text, system = maker()
        self.systems.append(system)
        return text

    def heading(self, system):
        groups = "; ".join(f"{name}: {of.name if isinstance(of, System) else of.text}" for name, of in system.parameters)
        return f"{system.name} = {system.kind}{f'({groups})' if groups else ''}; "

    def block_of(self, system, most):
        here = Here(system.kind)
        text, places = self.declarations.variables("x", most)
        here.places = places + [Place(name, of, False) for name, of in system.parameters if not isinstance(of, System)]
        here.components = [(name, of, None) for name, of in system.parameters if isinstance(of, System)]
        return here, text

    def invariants(self, here):
        if not self.chooser.chance(self.share_of_invariants):
            return ""
        self.chooser.use("invariant")
        return f'"(* invariant {self.statements.claim(here.quietly())} *)" '

    def finished(self, system, here, own, variables, routines, invariant, first):
        """The text of a system type with its initial statement, and its variables set, as a rule."""
        starts = self.starts(here, own)
        begun = [f"init {', '.join(starts)}"] if starts and self.chooser.chance(0.97) else []
        for place in here.places:
            if place.is_open and isinstance(place.type, Ordinal) and self.chooser.chance(0.5):
                begun.append(f"{place.text} := {self.expressions.seen_literal(here, place.type)}")
        body = "; ".join(begun + first)
        variables = f"var {variables}" if variables else ""
        return f"{self.heading(system)}{variables}{invariant}{routines}begin {body} end; "

    def class_type(self):
        self.names += 1
        system = System("class", f"c{self.names}", self.parameters(("class", "monitor"), 1))
        here, variables = self.block_of(system, 2)
        invariant = self.invariants(here)
        routines = self.routines(here, 1, 2)
        system.routines = here.routines
        return self.finished(system, here, [], variables, routines, invariant, []), system

    def monitor_type(self):
        self.names += 1
        system = System("monitor", f"m{self.names}", self.parameters(("monitor",), self.chooser.pick(0, 0, 1)))
        here, variables = self.block_of(system, 2)
        if not variables:
            variables, here.places = "x0: 0..2; ", here.places + [Place("x0", Ordinal("0..2", "integer", 0, 2))]
        more, own = self.own_components(("class",) if self.chooser.chance(0.8) else ("class", "monitor"), self.chooser.pick(0, 0, 1), "o")
        here.components += own
        here.queues, queues = self.queues()
        invariant = self.invariants(here)
        routines = self.routines(here, 1, 4)
        system.routines = here.routines
        here.routines = [it for it in here.routines if not it.waits]
        first = [self.statements.block(here, 1, 1)] if self.chooser.chance(0.15) and not here.components else []
        return self.finished(system, here, own, variables + more + queues, routines, invariant, first), system

    def queues(self):
        if self.chooser.chance(0.2):
            self.chooser.use("array of queues")
            return [("w", QUEUE_INDEX), "q"], "w: array [1..2] of queue; q: queue; "
        names = self.chooser.pick([], ["q"], ["q"], ["q"], ["q", "s"])
        return names, f"{', '.join(names)}: queue; " if names else ""

    def process_type(self):
        self.names += 1
        system = System("process", f"p{self.names}", self.parameters(("monitor",), 2))
        while self.of_kind("monitor") and not any(isinstance(of, System) for _, of in system.parameters):
            system.parameters += self.parameters(("monitor",), 2)
        here, variables = self.block_of(system, 2)
        here.counters = [Place("i", INTEGER)]
        more, own = self.own_components(("class",) if self.chooser.chance(0.85) else ("class", "monitor"), self.chooser.pick(0, 0, 1), "o")
        here.components += own
        routines = self.routines(here, 0, 1, entries=False)
        body = [self.statements.block(here, 3)]
        if self.is_endless and self.chooser.chance(0.8):
            body = body[:self.chooser.pick(0, 0, 1)] + [self.statements.endless(here, 2)]
        return self.finished(system, here, own, variables + more + "i: integer; ", routines, "", body), system

    # -- the program

    def source(self):
        constants = self.declarations.constants()
        types = self.declarations.type_part()
        for kind in ["class"] * self.chooser.pick(0, 0, 1, 1, 2) + ["monitor"] * self.chooser.pick(1, 1, 1, 2, 2, 3) + ["process"] * self.chooser.pick(1, 1, 2, 2, 3):
            types.append(self.system(kind))
        here, variables = Here("program"), ""
        variables, here.places = self.declarations.variables("g", 2)
        here.counters = [Place("i", INTEGER)]
        own = self.instances()
        here.components = own
        components = "".join(f"{name}: {f'array [{index.text}] of ' if index else ''}{system.name}; " for name, system, index in own)
        routines = self.routines(here, 0, self.chooser.pick(0, 0, 1), entries=False)
        body = "; ".join(self.program_body(here, own))
        count = 1 + sum(index.high - index.low + 1 if index else 1 for _, system, index in own if system.kind == "process")
        self.chooser.use(f"processes {count:2}")
        return f"{constants} type {' '.join(types)} var {variables}{components}i: integer; {routines} begin {body} end."

    def instances(self):
        """Components of the program: of each type one, or an array, so that there are few processes, as a rule."""
        made = []
        for system in self.systems:
            few = self.chooser.pick(1, 1, 1, 2, 2) if system.kind == "process" else self.chooser.pick(1, 1, 1, 1, 2)
            if system.kind == "process" and (self.has_many or self.chooser.chance(0.03)):
                few = self.chooser.number(3, 15 // max(len(self.of_kind("process")), 1))
            if system.kind == "class" and self.chooser.chance(0.3):
                continue
            self.names += 1
            index = Ordinal(f"1..{few}", "integer", 1, few) if few > 1 or self.chooser.chance(0.1) else None
            made.append((f"u{self.names}", system, index))
        return made

    def program_body(self, here, own):
        starts = self.starts_of_all(here, own)
        if self.chooser.chance(0.12) and starts:
            self.chooser.random.shuffle(starts)
        if self.chooser.chance(0.06) and starts:
            starts.remove(self.chooser.among(starts))
        if self.chooser.chance(0.04) and starts:
            starts.insert(self.chooser.number(0, len(starts)), self.chooser.among(starts))
        body = [f"init {start}" for start in starts] if self.chooser.chance(0.5) else [f"init {', '.join(starts)}"] * bool(starts)
        for _ in range(self.chooser.pick(0, 0, 1, 1, 2)):
            body.append(self.statements.statement(here, 1))
        return body

    def starts_of_all(self, here, own):
        starts, known = [], []
        for name, system, index in own:
            for place in [name] if index is None else [f"{name}[{it}]" for it in range(index.low, index.high + 1)]:
                arguments = [self.argument(here, known, of) for _, of in system.parameters]
                if None not in arguments:
                    starts.append(place + (f"({', '.join(arguments)})" if arguments else ""))
            known.append((name, system, index))
        return starts


def program(seed):
    """A source, and how often each construct was used in it."""
    maker = Maker(seed)
    chooser = maker.chooser
    text = SmallWorld(chooser).source() if chooser.chance(SHARE_OF_SMALL) else maker.source()
    tokens = tokens_of(text)
    return strewn(tokens, chooser) if chooser.chance(0.2) else laid_out(tokens), chooser.used

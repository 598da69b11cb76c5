"""The rules of the checker: docs/RULES.md, and Names, Types, Components and Limits of docs/LANGUAGE.md.

The parts of each construct are checked in reading order, and then the construct itself; the first fault that is met is raised (RULES,
Which fault is reported). A fault is a triple: the number of its token, its rule, its line. So the least of those of one construct is the first.
"""
from __future__ import annotations
from collections import ChainMap
from typing import Optional, Union
import tree
from tree import (Array, Base, Binary, BOOLEAN, CHAR, Constant, Expression, Group, Index, INTEGER, Node, Ordinal, Parenthesised, Queue, QUEUE,
                  Record, Refusal, Routine, Set, SetOf, Standard, System, Type, Unary, Use, Variable)

TYPES = (Ordinal, Set, Array, Record, Queue, System)
MOST_CELLS = 8192                    # of a type, and of all components
# Components: where each kind is declared.
PLACES = {"class": ("program", "class", "monitor", "process"), "monitor": ("program", "process", "monitor"), "process": ("program",)}
SUM, TERM, RELATION = ("+", "-", "or"), ("*", "div", "mod", "and"), ("=", "<>", "<", ">", "<=", ">=", "in")
# Names: those that are predeclared.
PREDECLARED = {"integer": INTEGER, "boolean": BOOLEAN, "char": CHAR, "queue": QUEUE,
               "false": Constant(0, 0, "", None, 0, BOOLEAN), "true": Constant(0, 0, "", None, 1, BOOLEAN),
               **{name: Standard(name, True) for name in ("succ", "pred", "chr", "ord", "abs", "empty")},
               **{name: Standard(name, False) for name in ("delay", "continue", "display")}}


def check(program: System) -> System:
    """The program with its names resolved, if it breaks no rule."""
    Block(ChainMap({}, PREDECLARED), program, None).check_system()
    components, processes, permanent = program.size
    types = [inner_type(variable.type) for variable in program.variables]
    need = max([program.need] + [type.need for type in types if is_component(type, "process")])
    if components > 64 or 1 + processes > 16 or permanent > MOST_CELLS or need > 4096:
        raise Refusal(program.end, "check C20")
    return program


def unless(holds: bool, node: Node, rule: int) -> list[tuple]:
    """The fault at this node, if it is one."""
    return [] if holds else [(node.token, rule, node.line)]


def refuse(faults: list[tuple]) -> None:
    """Which fault is reported: of one construct the first by place, then by rule."""
    if faults:
        _, rule, line = min(faults)
        raise Refusal(line, f"check C{rule}")


def require(holds: bool, node: Node, rule: int) -> None:
    refuse(unless(holds, node, rule))


# Types.

def is_ordinal(type: Optional[Type]) -> bool:
    return isinstance(type, Ordinal)


def is_of(type: Optional[Type], base: Ordinal) -> bool:
    return is_ordinal(type) and type.base is base.base


def base_of(type: Ordinal) -> Ordinal:
    return Ordinal(type.base, type.base.low, type.base.high)


def agree(one: Optional[Type], other: Optional[Type]) -> bool:
    """Types: two ordinal types agree if they have the same base, two sets if their bases agree."""
    if isinstance(one, Set) and isinstance(other, Set):
        return one.base is None or other.base is None or agree(one.base, other.base)
    return one is other or is_ordinal(one) and is_of(other, one)


def inner_type(type: Type) -> Type:
    """Of an array the type of its elements."""
    return type.element if isinstance(type, Array) else type


def is_component(type: Type, *kinds: str) -> bool:
    return isinstance(type, System) and type.kind in kinds


def cells(type: Type) -> int:
    """Limits: the cells of a variable of this type."""
    if isinstance(type, Array):
        return (type.index.high - type.index.low + 1) * cells(type.element)
    if isinstance(type, Record):
        return sum(cells(field) for field in type.fields.values())
    return 8 if isinstance(type, Set) else 0 if isinstance(type, System) else 1


def parameter_cells(parameters: list[Variable]) -> int:
    return sum(1 if p.by_reference or isinstance(p.type, System) else cells(p.type) for p in parameters)


def operation_type(operator: str, left: Type, right: Type) -> Optional[Type]:
    """Types, the table of operations: the type of the result, None where the operands do not fit."""
    if operator == "in":
        return BOOLEAN if is_ordinal(left) and isinstance(right, Set) and agree(Set(left), right) else None
    if not agree(left, right):
        return None
    if operator in RELATION:
        return BOOLEAN if is_ordinal(left) or isinstance(left, Set) and operator in ("=", "<>") else None
    if isinstance(left, Set):
        return (right if left.base is None else left) if operator in ("or", "-", "and") else None
    operand = BOOLEAN if operator in ("and", "or") else INTEGER
    return operand if is_of(left, operand) else None


def standard_type(name: str, argument: Expression) -> Optional[Type]:
    """Types, the table of operations: succ, pred, chr, ord, abs and empty."""
    if name == "empty":
        return BOOLEAN if is_queue(argument) else None
    if name in ("succ", "pred", "ord"):
        return None if not is_ordinal(argument.type) else INTEGER if name == "ord" else base_of(argument.type)
    return None if not is_of(argument.type, INTEGER) else CHAR if name == "chr" else INTEGER


def is_queue(argument: Expression) -> bool:
    """C5: an argument of delay, continue or empty is a queue variable, not in parentheses."""
    return isinstance(argument, Use) and isinstance(argument.type, Queue)


def is_function(means) -> bool:
    return isinstance(means, (Routine, Standard)) and means.function


class Block:
    """The program, a system type or a routine: a scope, and what is written in it."""

    def __init__(self, visible: ChainMap, system: System, routine: Optional[Routine]):
        self.visible = visible                   # what names mean, the innermost scope first
        self.reserved: set[str] = set()          # the names of this scope, also those that are not visible yet
        self.system, self.routine = system, routine
        self.in_annotation = False
        self.delays = False                      # a delay is written here, or in a local routine that is called here
        self.calls: list[Routine] = []           # of declared routines, as often as they are written
        self.inits: list[System] = []            # the classes and monitors that are initialised

    # Names.

    def reserve(self, *names: tree.Name) -> None:
        """C2"""
        for name in names:
            require(name.text not in self.reserved, name, 2)
            self.reserved.add(name.text)

    def meaning(self, name: str, node: Node):
        """C1"""
        require(name in self.visible, node, 1)
        return self.visible[name]

    # Declarations.

    def check_system(self) -> None:
        """Names: the parameters, variables and routines of a system type are one scope."""
        system = self.system
        system.parameters = [found for group in system.groups for found in self.declare(group, "parameter")]
        system.variables = self.declarations(system.declarations)
        for invariant in system.invariants:
            self.annotation(invariant)
        for routine in system.routines:
            self.reserve(routine.name)
            inner = Block(self.visible.new_child(), system, routine)
            inner.heading()
            self.visible[routine.name.text] = routine
            inner.check_routine()
        self.check_all(system.body)
        system.need, system.size = self.need(), self.size()

    def heading(self) -> None:
        """C5 of a result, C9 of the word `entry`"""
        routine = self.routine
        routine.system = self.system
        routine.parameters = [found for group in routine.groups for found in self.declare(group, "parameter")]
        if routine.function:
            routine.result = Variable(routine.name.text + "()", self.type(routine.result_type, "value"), local=True)
        refuse(unless(not routine.function or is_ordinal(routine.result.type), routine, 5)
               + unless(not routine.entry or self.system.kind in ("class", "monitor"), routine.entry or routine, 9))

    def check_routine(self) -> None:
        routine = self.routine
        routine.variables = self.declarations(routine.declarations)
        self.check_all(routine.body)
        routine.delays = self.delays
        routine.need = self.need() + parameter_cells(routine.parameters) + sum(cells(v.type) for v in routine.variables) + routine.function

    def need(self) -> int:
        """Limits: the frame cells of a body, without those of its parameters, variables and result."""
        functions = sum(routine.function for routine in self.calls)
        return functions + max((called.need for called in self.calls + self.inits), default=0)

    def size(self) -> tuple[int, int, int]:
        """Limits: the components and processes in a component of this type, and the permanent cells of it and of these."""
        components, processes, permanent = 0, 0, parameter_cells(self.system.parameters)
        for variable in self.system.variables:
            inner = inner_type(variable.type)
            permanent += cells(variable.type)
            if isinstance(inner, System):
                number = 1 if inner is variable.type else variable.type.index.high - variable.type.index.low + 1
                components += number * (1 + inner.size[0])
                processes += number * (is_component(inner, "process") + inner.size[1])
                permanent += number * inner.size[2]
        return components, processes, permanent

    def parameter_type(self, written: tree.NamedType) -> Type:
        """C14, C15; C11 and C13 only where neither is broken"""
        type, of_system = self.named_type(written), self.routine is None
        require(not (of_system and is_component(type, "class") and self.system.kind != "class"), written, 14)
        require(not isinstance(type, Queue) and not is_component(type, "process"), written, 15)
        return self.type(written, "parameter" if of_system else "value")

    def declare(self, group: Group, spot: str) -> list[Variable]:
        """Names: the variables or parameters of a group, which are visible from here on."""
        self.reserve(*group.names)
        type = self.parameter_type(group.type) if spot == "parameter" else self.type(group.type, spot)
        found = [Variable(name.text, type, self.routine is not None, spot == "parameter", group.by_reference) for name in group.names]
        self.visible.update({variable.name: variable for variable in found})
        return found

    def declarations(self, declarations: list[tree.Declaration]) -> list[Variable]:
        """Names: each declaration is visible from its end on. The variables are answered."""
        variables = []
        for declaration in declarations:
            if isinstance(declaration, Group):
                variables += self.declare(declaration, "variable")
            else:
                self.reserve(declaration.name)
                self.visible[declaration.name.text] = self.defined(declaration)
        return variables

    def defined(self, declaration: tree.Declaration):
        """What a constant, a type or a system type is."""
        if isinstance(declaration, tree.ConstantDefinition):
            return self.constant(declaration.value)
        if isinstance(declaration, tree.TypeDefinition):
            return self.type(declaration.type, "definition")
        # Names: a system type sees none of the program's variables, and these hide nothing there.
        seen = {name: meaning for name, meaning in self.visible.maps[0].items() if not isinstance(meaning, Variable)}
        Block(ChainMap({}, seen, PREDECLARED), declaration, None).check_system()
        return declaration

    # Types and constants.

    def constant(self, constant: Constant) -> Constant:
        """C3, and C5 of a sign"""
        if constant.name is not None:
            meaning = self.meaning(constant.name.text, constant.name)
            require(isinstance(meaning, Constant), constant.name, 3)
            require(not constant.sign or is_of(meaning.type, INTEGER), constant, 5)
            constant.value, constant.type = -meaning.value if constant.sign == "-" else meaning.value, meaning.type
        return constant

    def named_type(self, written: tree.NamedType) -> Type:
        """C4"""
        meaning = self.meaning(written.name, written)
        require(isinstance(meaning, TYPES), written, 4)
        return meaning

    def type(self, written: tree.WrittenType, spot: str) -> Type:
        """What a written type stands for, and C5, C18, C20. The spot is that of `require_place`."""
        if isinstance(written, tree.NamedType):
            type = self.named_type(written)
        elif isinstance(written, tree.EnumerationType):
            type = self.enumeration(written)
        elif isinstance(written, tree.SubrangeType):
            low, high = self.constant(written.low), self.constant(written.high)
            require(agree(low.type, high.type), written, 5)
            require(low.value <= high.value, written, 18)
            type = Ordinal(low.type.base, low.value, high.value)
        elif isinstance(written, tree.ArrayType):
            type = Array(self.type(written.index, "value"), self.type(written.element, "element"))
            require(is_ordinal(type.index), written, 5)
        elif isinstance(written, tree.SetType):
            type = Set(self.type(written.base, "base"))
            require(is_ordinal(type.base), written.base, 5)
            require(0 <= type.base.low and type.base.high <= 127, written, 20)
        else:
            type = self.record(written)
        self.require_place(type, spot, written)
        require(cells(type) <= MOST_CELLS, written, 20)
        return type

    def require_place(self, type: Type, spot: str, node: Node) -> None:
        """C11, C13: queues and components are permanent variables, alone or as an array of one index; components are parameters of systems.
        As the base of a set they are no ordinal type (C5)."""
        inner = inner_type(type)
        if isinstance(inner, (Queue, System)) and spot != "base":
            kinds = ("monitor",) if isinstance(inner, Queue) else PLACES[inner.kind]
            allowed = {"variable": self.routine is None and self.system.kind in kinds, "definition": inner is not type,
                       "element": inner is type, "parameter": inner is type, "value": False}
            require(allowed[spot], node, 11 if isinstance(inner, Queue) else 13)

    def enumeration(self, written: tree.EnumerationType) -> Ordinal:
        """Names: its constants belong to the block, and are visible from its end on."""
        self.reserve(*written.names)
        base = Base("enumeration", 0, len(written.names) - 1, [name.text for name in written.names], written.token)
        type = Ordinal(base, 0, base.high)
        self.visible.update({name.text: Constant(name.line, name.token, "", name, value, type) for value, name in enumerate(written.names)})
        return type

    def record(self, written: tree.RecordType) -> Record:
        """C2 of fields, which have a scope of their own"""
        fields: dict[str, Type] = {}
        for group in written.groups:
            for name in group.names:
                require(name.text not in fields, name, 2)
                fields[name.text] = None
            fields.update(dict.fromkeys([name.text for name in group.names], self.type(group.type, "value")))
        return Record(fields)

    # Statements and expressions. Each expression gets its type.

    def check(self, node: Node) -> None:
        """Which fault is reported: the parts of a construct in reading order, then the construct itself."""
        getattr(self, "check_" + type(node).__name__, self.check_parts)(node)

    def check_parts(self, node: Node) -> None:
        for part in vars(node).values():
            self.check_all([one for one in (part if isinstance(part, list) else [part]) if isinstance(one, Node)])

    def check_all(self, nodes: list[Node]) -> None:
        for node in nodes:
            self.check(node)

    def check_Assert(self, statement: tree.Assert) -> None:
        self.annotation(statement.condition)
        self.check(statement.statement)

    def annotation(self, condition: Expression) -> None:
        """C22, of an assertion or an invariant: C5 at its expression"""
        self.in_annotation = True
        self.check(condition)
        self.in_annotation = False
        require(is_of(condition.type, BOOLEAN), condition, 5)

    def check_If(self, statement: tree.If) -> None:
        """C5 of a condition"""
        self.check_parts(statement)
        require(is_of(statement.condition.type, BOOLEAN), statement, 5)

    check_While = check_Repeat = check_If

    def check_Init(self, statement: tree.Init) -> None:
        """C16"""
        for start in statement.starts:
            self.start(start)
        require(self.routine is None, statement, 16)

    def check_Assign(self, statement: tree.Assign) -> None:
        """C5 of the two sides, C6"""
        target = statement.target
        self.target(target)
        self.check(statement.value)
        fits = is_function(target.means) or agree(target.type, statement.value.type)
        refuse(unless(fits, statement, 5) + self.target_faults(target))

    def target(self, target: Use) -> None:
        """C5 of a target: neither a procedure nor a type"""
        self.designator(target)
        self.as_result(target)
        require(isinstance(target.means, (Constant, Variable)) or is_function(target.means), target, 5)

    def as_result(self, target: Use) -> None:
        """Components: as a target the name of this function is its result."""
        if self.routine and self.routine.function and target.means is self.routine:
            target.means, target.type = self.routine.result, self.routine.result.type

    def target_faults(self, target: Expression) -> list[tuple]:
        """C6: what is no variable that may change"""
        means = target.means if isinstance(target, Use) and not target.args else None
        changes = (isinstance(means, Variable) and (means.by_reference or not means.parameter)
                   and not isinstance(inner_type(target.type), (Queue, System)))
        return unless(changes, target, 6)

    def check_Case(self, statement: tree.Case) -> None:
        """C5 of a selector and of labels, C19"""
        self.check(statement.selector)
        type, labels, faults = statement.selector.type, {}, []
        for arm in statement.arms:
            for label in arm.labels:
                self.constant(label)
                faults += unless(is_ordinal(type) and agree(label.type, type), statement, 5)
                faults += unless(labels.setdefault(label.value, label) is label, label, 19)
            self.check(arm.statement)
        refuse(faults)

    def check_For(self, statement: tree.For) -> None:
        """C5 of the variable and the bounds, C6"""
        variable, first, last = statement.variable, statement.first, statement.last
        self.designator(variable)
        self.as_result(variable)
        self.check_all([first, last, statement.body])
        fits = (is_ordinal(first.type) and agree(first.type, last.type)
                and (is_function(variable.means) or agree(first.type, variable.type)))
        refuse(unless(fits, statement, 5) + self.target_faults(variable))

    def start(self, start: Use) -> None:
        """C17, and C5 and C7 of the arguments"""
        self.designator(start)
        self.check_all(start.args)
        own = isinstance(start.means, Variable) and not start.means.parameter and isinstance(start.type, System)
        require(own, start, 17)
        start.system = start.type
        self.inits += [] if is_component(start.type, "process") else [start.type]
        refuse(self.misfits(start, start.type.parameters))

    # Calls.

    def check_Call(self, statement: tree.Call) -> None:
        """C5, C7, C12, C21 of a call of delay, continue or display; the rules of other calls"""
        use = statement.use
        self.designator(use)
        means = use.means
        if isinstance(means, Routine) and not means.function:
            self.arguments(use)
            refuse(self.call_faults(use))
            return
        self.check_all(use.args)
        require(isinstance(means, Standard) and not means.function, use, 5)
        require(len(use.args) == 1, use, 7)
        if means.name == "display":
            require(is_ordinal(use.args[0].type), use.args[0], 21)
            return
        require(is_queue(use.args[0]), use, 5)
        routine = self.routine if self.system.kind == "monitor" else None
        require(routine is not None and (means.name == "delay" or routine.entry is not None and not routine.function), use, 12)
        self.delays = self.delays or means.name == "delay"

    def arguments(self, use: Use) -> None:
        """C6, C7, C10: the name of another function is no call where the argument of a `var` parameter stands"""
        fits = len(use.args) == len(use.means.parameters)
        for argument, parameter in zip(use.args, use.means.parameters if fits else [None] * len(use.args)):
            names = isinstance(argument, Use) and not argument.args and self.visible.get(argument.name, "") is not self.routine
            if names and fits and parameter.by_reference:
                self.target(argument)
            else:
                self.check(argument)

    def misfits(self, use: Use, parameters: list[Variable]) -> list[tuple]:
        """C5, C6, C7: arguments that do not fit their parameters"""
        if len(use.args) != len(parameters):
            return unless(False, use, 7)
        faults = []
        for argument, parameter in zip(use.args, parameters):
            if parameter.by_reference:
                faults += unless(argument.type in (None, parameter.type), use, 5) + self.target_faults(argument)
            else:
                faults += unless(agree(argument.type, parameter.type), use, 5)
        return faults

    def call_faults(self, use: Use) -> list[tuple]:
        """C5, C6, C7, C9, C10, C12, C22 of a call of a declared routine"""
        routine, name = use.means, use.selectors[-1] if use.component else use
        self.calls.append(routine)
        if use.component is None and routine.delays:
            self.delays = True
        return (self.misfits(use, routine.parameters)
                + unless((routine.entry is None) == (use.component is None), name, 9)
                + unless(routine is not self.routine, name, 10)
                + unless(self.routine is not None or use.component is not None or not routine.delays, name, 12)
                + unless(not self.in_annotation, use, 22))

    def designator(self, use: Use) -> None:
        """C1, C8 of its names, C5 of its selectors: what it means, and the type of a variable or a constant"""
        means = use.means = self.meaning(use.name, use)
        type, fits = means.type if isinstance(means, Variable) else None, True
        for place, selector in enumerate(use.selectors):
            if isinstance(selector, Index):
                self.check(selector.value)
                fits = fits and isinstance(type, Array) and agree(type.index, selector.value.type)
                selector.array, type = type, type.element if isinstance(type, Array) else None
            elif isinstance(type, Record):
                require(selector.name in type.fields, selector, 1)
                type = type.fields[selector.name]
            elif isinstance(type, System):
                routine = next((routine for routine in type.routines if routine.name.text == selector.name), None)
                require(routine is not None, selector, 8)
                use.component = Use(use.line, use.token, use.name, use.selectors[:place], [], means, type)
                use.means, type = routine, None
            else:
                fits, type = False, None
        require(fits, use, 5)
        use.type = means.type if isinstance(means, Constant) else type

    # Expressions.

    def check_Parenthesised(self, expression: Parenthesised) -> None:
        self.check(expression.inner)
        expression.type = expression.inner.type

    def check_SetOf(self, expression: SetOf) -> None:
        """C5 of its elements"""
        self.check_parts(expression)
        types = [element.type for element in expression.elements]
        require(all(is_ordinal(type) and agree(type, types[0]) for type in types), expression, 5)
        expression.type = Set(base_of(types[0]) if types else None)

    def check_Binary(self, expression: Union[Unary, Binary]) -> None:
        """C5: a comparison, a sum (with its sign) and a term are each one construct with all of its operands"""
        operators = next(group for group in (RELATION, SUM, TERM) if expression.operator in group)
        chain, first = [], expression
        while isinstance(first, (Unary, Binary)) and first.operator in operators:
            chain.insert(0, first)
            first = first.operand if isinstance(first, Unary) else first.left
        self.check_all([first] + [operation.right for operation in chain if isinstance(operation, Binary)])
        for operation in chain:
            if isinstance(operation, Unary):
                operation.type = INTEGER if is_of(operation.operand.type, INTEGER) else None
            else:
                operation.type = operation_type(operation.operator, operation.left.type, operation.right.type)
            require(operation.type is not None, expression, 5)

    def check_Unary(self, expression: Unary) -> None:
        if expression.operator != "not":
            return self.check_Binary(expression)
        self.check(expression.operand)
        require(is_of(expression.operand.type, BOOLEAN), expression, 5)
        expression.type = BOOLEAN

    def check_Use(self, use: Use) -> None:
        """C5, C7, and the rules of a call: a name, a place or a call in an expression"""
        self.designator(use)
        self.check_all(use.args)
        means = use.means
        if isinstance(means, (Constant, Variable)):
            require(not use.args, use, 5)
        elif isinstance(means, Standard) and means.function:
            require(len(use.args) == 1, use, 7)
            use.type = standard_type(means.name, use.args[0])
            require(use.type is not None, use, 5)
        else:
            require(is_function(means), use, 5)
            refuse(self.call_faults(use))
            use.type = means.result.type

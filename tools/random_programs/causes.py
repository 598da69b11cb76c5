"""The cause of a run error, read off the frames of the reference in which the error came up."""
from random_programs.reading import State, options, schedules
from steps import StepFailed
from values import NUMBERS, SIGNS


class Watching:
    """Makes the steps of a machine, and keeps the run error of the last one."""

    def __init__(self, machine):
        self.machine, self.error = machine, None

    def step(self, s, process):
        try:
            return self.machine.step(s, process)
        except StepFailed as failed:
            self.error = failed.__context__
            raise


def cause_of(meaning, words, word):
    """The members that JSON tells of the cause of the error that ends this schedule, as far as they can be read off."""
    asked = options.read(words)
    graph = meaning.graph(asked)
    before = meaning.follow(words, list(word[:-1])) if word else None
    s = State(graph.machine.components, graph.states[before[-1].node] if word else graph.machine.opening)
    process = schedules.choose(graph.machine, s, word[-1]) if word else 0
    watching = Watching(graph.machine)
    schedules.stretch(watching, s, process, asked.steps, lambda process, event: None)
    return told_by(meaning, watching.error.args[0], frames_of(watching.error)) if watching.error else {}


def frames_of(error):
    """The variables that the functions around an error know, the innermost function first."""
    found, trace = [], error.__traceback__
    while trace:
        found.insert(0, (trace.tb_frame.f_code.co_name, trace.tb_frame.f_locals))
        trace = trace.tb_next
    return found


def told_by(meaning, error, frames):
    name, inner = frames[0]
    if error in ("not-init", "init-twice"):
        return {"component": meaning.component(inner["number"])}
    if error == "invariant":
        return {"component": meaning.component(inner["s"].frame[0])}
    if name in ("fitting", "quotient"):
        return operation([known for _, known in frames])
    if name == "checked" and hasattr(inner["type"], "low"):
        return out_of_range(inner["type"], inner["value"], frames[1][1].get("a", inner["value"]))
    if name == "delay":
        return {"waiting": inner["s"].read(inner["place"])}
    return {"text": f"no label is {inner['chosen']}"} if "chosen" in inner else {}


def out_of_range(type, value, operand):
    """The operand of succ and pred is another value than the one that is checked."""
    if operand == value:
        return {"value": value, "low": type.low, "high": type.high}
    return {"text": "the last value has no succ" if value > operand else "the first value has no pred"}


def operation(frames):
    """The operands are those of the function of the operation, which knows a and b; around it is who knows which operation it is."""
    at = next(number for number, known in enumerate(frames) if "a" in known)
    operands, operate = frames[at], frames[at + 1].get("operate")
    if "b" in operands:
        signs = [sign for sign, function in NUMBERS.items() if function is operate]
        return {"left": operands["a"], "right": operands["b"], **({"operator": signs[0]} if signs else {})}
    return {"operand": operands["a"], "operator": "-" if operate is SIGNS["-"] else "abs"}

"""Options: docs/REPORT.md, Options."""
import re
from dataclasses import dataclass
from typing import Optional

NUMBERS = {"--choices": (0, 20), "--steps": (1, 100_000), "--workers": (1, 16), "--cut": (0, 20), "--states": (1, 10_000_000)}
NAMED = {"--gates": ("first", "any"), "--signals": ("return", "continue", "wait")}
FLAGS = ("--rows", "--merge", "--ends", "--waits", "--at-once")
MOST_CHOICES = 100                   # with --merge or --ends
CLASHES = [                          # words that are refused together
    ("--merge", "--ends"), ("--merge", "--rows"), ("--ends", "--rows"), ("--waits", "--at-once"),
    ("--waits", "--gates any"), ("--at-once", "--gates any"),
    ("--at-once", "--signals continue"), ("--at-once", "--signals wait"), ("--signals wait", "--gates any"),
]


class Refused(Exception):
    """options refused"""


class Help(Exception):
    """--help, before any refused word"""


@dataclass
class Options:
    choices: int
    steps: int
    states: int
    gates: str
    signals: str
    flags: set[str]
    schedule: Optional[tuple[int, ...]]
    file: Optional[str]


def read(words):
    """The options that these words ask for. One word may be the name of a file, which is this program's own."""
    given, file, words = {}, None, list(words)
    while words:
        name, equals, value = words.pop(0).partition("=")
        if name in ("--help", "-h") and not equals:
            raise Help
        if not name.startswith("-") and file is None:
            file = name + equals + value
            continue
        if name in given:
            raise Refused(f"{name}: given twice")
        if name in FLAGS and not equals:
            given[name] = True
        elif name in NUMBERS or name in NAMED or name == "--schedule":
            if not equals:
                value = words.pop(0) if words else "-"
            given[name] = value_of(name, value)
        else:
            raise Refused(f"{name}: no such option")
    return meant(given, file)


def value_of(name, value):
    if name in NUMBERS:
        low, high = NUMBERS[name]
        digits = re.fullmatch(r"\+?0*([0-9]{1,8})", value)          # Python reads no number of 5,000 digits
        if digits and low <= int(digits[1]) <= (MOST_CHOICES if name == "--choices" else high):
            return int(digits[1])
    elif name in NAMED:
        if value in NAMED[name]:
            return value
    elif value == "none":
        return ()
    elif re.fullmatch(r"(0|1[0-5]?|[2-9])(\.(0|1[0-5]?|[2-9]))*", value) and value.count(".") < MOST_CHOICES:
        return tuple(map(int, value.split(".")))
    raise Refused(f"{name}: {value}")


def meant(given, file):
    """The rules for several options together."""
    flags = {name for name in FLAGS if name in given}
    gates, signals = given.get("--gates", "first"), given.get("--signals", "return")
    said = flags | {f"--gates {gates}", f"--signals {signals}"}
    for one, other in CLASHES:
        if one in said and other in said:
            raise Refused(f"{one} beside {other}")
    for name in {"--waits", "--at-once"} & flags:
        if "--ends" not in flags:
            raise Refused(f"{name} without --ends")
    most = MOST_CHOICES if flags & {"--merge", "--ends"} else NUMBERS["--choices"][1]
    choices, schedule = given.get("--choices", MOST_CHOICES if "--ends" in flags else 8), given.get("--schedule")
    if choices > most or schedule and len(schedule) > most:
        raise Refused(f"more than {most} choices")
    states = given.get("--states", 2_000_000 if "--at-once" in flags else 200_000)
    return Options(choices, given.get("--steps", 1000), states, gates, signals, flags, schedule, file)

"""Options and expectations, read once by the program itself before the first solution."""
import json
import re
import time

from .words import Refused

# The names in an expectation that only a program can give a meaning to, and which this one takes them for.
NAME = re.compile(r"([A-Za-z]\w*)(?:\[(\d+)\])?$")
MEANINGS = ("process", "constant")


def read_all(program, asked):
    """Stops where the program refuses an option or an expectation."""
    for expectation in asked.expectations or ["never finished"]:
        read(program, asked, expectation)


def read(program, asked, expectation):
    meanings = {}
    while True:
        answer = program.run(["mark", "--json", *asked.options, expectation], program_with(meanings), time.monotonic() + 60)
        if answer.status != 2:
            return
        if not answer.text:
            raise Refused(answer.said.strip().splitlines()[-1])
        why = json.loads(answer.text)["misread"].removeprefix(f"{expectation}: ")
        # A name that is not known may be one that the solutions have.
        named = [it for it in expectation.split() if NAME.match(it) and (f'"{it}"' in why or why.endswith(f" {it}"))]
        names = [it for it in named if meanings.get(it) != MEANINGS[-1]]
        if not names:
            raise Refused(f"-e '{expectation}': {why}")
        for name in names:
            meanings[name] = MEANINGS[1] if name in meanings else MEANINGS[0]


def program_with(meanings):
    """Returns a program in which each name is a process, or a constant that is displayed."""
    processes, constants = [], []
    for name, meaning in meanings.items():
        found = NAME.match(name)
        if meaning == "constant":
            constants.append(name)
        else:
            processes.append(f"{found[1]}: array [{found[2]}..{found[2]}] of a_process; " if found[2] else f"{name}: a_process; ")
    types = "type a_process = process; begin end; " + (f"a_constant = ({', '.join(constants)}); " if constants else "")
    variables = "var " + "".join(processes) if processes else ""
    displayed = "; ".join(f"display({it})" for it in constants)
    return f"{types}{variables}begin {displayed} end.".encode()

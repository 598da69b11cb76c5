"""Whether a page of the manual has what a program says of its options."""
import re
import subprocess

OPTION = re.compile(r"\s+(?:-\w, )?(--[a-z-]+)(?: <[^>]*>)?\s*(.*)")
CONTINUED = " " * 10
RANGE = re.compile(r"(?:\d+ to \d+ )?\[default: [^\]]*\]")
HEADING, FONT, OTHER = re.compile(r"(?m)^\.S[HS] "), re.compile(r"(?m)^\.(?:B|I|BI|BR|IR|RB|RI) "), re.compile(r"(?m)^\..*$")


def plain(page):
    """The text of a page of the manual, without what sets it."""
    text = OTHER.sub("", FONT.sub("", HEADING.sub("", page)))
    return " ".join(text.replace("\\-", "-").replace('"', "").split())


def options_of(program, words):
    """Each option that the program's help tells, with its text."""
    told = subprocess.run([program, *words, "--help"], capture_output=True, text=True).stdout
    found = []
    for line in told.splitlines():
        option = OPTION.match(line)
        if option:
            found.append([option[1], option[2]])
        elif found and line.startswith(CONTINUED):
            found[-1][1] += " " + line.strip()
    return found


def manual_faults(path, program, parts):
    """For each option of a program, or of its parts, what the page lacks of it, or None; and for each option of the page whether there is one."""
    text = plain(path.read_text())
    options = {(name, what) for words in parts for name, help_text in options_of(program, words) for what in [name, *RANGE.findall(help_text)]}
    for name, what in sorted(options):
        yield None if re.search(re.escape(what) + r"(?![a-z-])", text) else f"{path.name}: there is no {what} of {name}"
    told = {name for name, _ in options} | {"--version"}
    for name in sorted(set(re.findall(r"(?<![a-z-])--[a-z]+(?:-[a-z]+)*", text))):
        yield None if name in told else f"{path.name}: no help tells {name}"
    if not options:
        yield f"{path.name}: no option is told by {program}"

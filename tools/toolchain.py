#!/usr/bin/env python3
"""toolchain.py: prints which toolchain is here, and whether it is the one that README.md pins: its last line in code."""
import re
import subprocess
from pathlib import Path

README = Path(__file__).resolve().parent.parent / "README.md"


def toolchain():
    """Returns what the toolchain says that it is."""
    try:
        done = subprocess.run(["rt", "version"], capture_output=True, text=True, check=False)
    except OSError:
        return "unknown"
    return done.stdout.strip() or "unknown"


def pinned():
    """Returns what the pinned one says that it is."""
    return re.findall(r"(?m)^    (rattle-kit\S* logic \S+)$", README.read_text(encoding="utf-8"))[-1]


def logic(version):
    return version.partition(" logic ")[2]


def comparison():
    """Returns a line on the toolchain that is here."""
    here, wanted = toolchain(), pinned()
    if here == wanted:
        return f"the toolchain is {here}, as README.md pins it"
    if logic(here) == logic(wanted):
        return f"the toolchain is {here}, and README.md pins {wanted}: the logic is the same, so the proofs hold, but statements of its own library may differ"
    return f"the toolchain is {here}, and README.md pins {wanted}: the logic is another, so what is proved here may not be proved by it"


if __name__ == "__main__":
    print(comparison())

"""The stored cases below tests/: of each its program, its words, its status, and what is wanted of it.

A case is NAME.cp, the source; NAME.args, an option word a line (no file: no words); NAME.status, the exit status (no file: 0); and a file of what is wanted. Its
program may be that of another case: then there is no NAME.cp, and the last line of NAME.args names it by its path, as '< tests/report/rows/two-displays.cp'."""
from dataclasses import dataclass
from pathlib import Path

ROOT = Path(__file__).resolve().parents[2]
TESTS = ROOT / "tests"
NAMES = "< "


@dataclass(frozen=True)
class Case:
    """A case, by its path without a suffix."""

    stem: Path
    program: Path
    words: list
    status: int

    def file(self, suffix):
        """One of its files."""
        return Path(f"{self.stem}{suffix}")

    def source(self):
        return self.program.read_bytes()


def case_at(stem):
    """The case of this path without a suffix."""
    args, status = Path(f"{stem}.args"), Path(f"{stem}.status")
    words = args.read_text(encoding="utf-8").splitlines() if args.exists() else []
    named = words.pop().removeprefix(NAMES) if words and words[-1].startswith(NAMES) else None
    program = ROOT / named if named else Path(f"{stem}.cp")
    return Case(stem, program, words, int(status.read_text()) if status.exists() else 0)


def files_in(folder):
    """The files below a folder, in order."""
    return [it for it in sorted(Path(folder).rglob("*")) if it.is_file()]


def cases_in(folder, *wanted):
    """The cases below a folder that have a program and a file of what is wanted, in order."""
    stems = {it.with_suffix("") for it in files_in(folder) if it.suffix in wanted}
    cases = [case_at(stem) for stem in sorted(stems, key=lambda stem: Path(f"{stem}.cp"))]
    return [it for it in cases if it.program.is_file()]


def strays(folder, *wanted):
    """A line for each file that belongs to no case, which would never be looked at."""
    files = files_in(folder)
    for path in files:
        program = case_at(path.with_suffix("")).program
        if not any(path.with_suffix(it).is_file() for it in wanted):
            yield f"{path}: nothing is wanted of it"
        elif not program.is_file():
            yield f"{path}: there is no program {program}"
        elif path.suffix == ".cp" and path != program:
            yield f"{path}: its case names another program, {program}"


def programs_twice():
    """For each program that stands more than once below tests/ the paths at which it stands."""
    found = {}
    for path in sorted(TESTS.rglob("*.cp")):
        found.setdefault(path.read_bytes(), []).append(str(path.relative_to(ROOT)))
    return [it for it in found.values() if len(it) > 1]

#!/usr/bin/env python3
"""Tells whether a program that stands in out/ was built from the sources that stand here.

usage: sources.py sums                       prints a sum for each program, of all that its build reads: crates.txt, and src/, specs/ and proofs/ of its crate and
                                             of those below
       sources.py record [SUMS]              writes beside each program in crates/*/out which sources and which toolchain it was built from. SUMS are those that
                                             stood here when its build began; where they have changed since, nothing is written and the status is 1
       sources.py compare PROGRAM SIGN       prints what is wrong with a program, if anything is, and keeps this answer for the sign, which is any text that changes
                                             with each change of a file: tools/run-program asks again only for another sign

What stands beside out/NAME is out/NAME.built, with the sums of the sources and of the program itself, and out/NAME.compared, the last answer."""
import hashlib
import sys
from pathlib import Path

sys.dont_write_bytecode = True
from toolchain import toolchain  # noqa: E402 (nothing is written beside it)

ROOT = Path(__file__).resolve().parent.parent
PARTS = ("src", "specs", "proofs")


def libraries(root=ROOT):
    """Returns for each crate the crates that it uses, as crates.txt says."""
    used = {}
    for line in (root / "crates.txt").read_text(encoding="utf-8").splitlines():
        name, colon, words = line.partition(":")
        if colon and not line.startswith("#"):
            used[name.split()[0]] = words.split()
    return {name: [word for word in words if word in used] for name, words in used.items()}


def below(used, names):
    """Returns these crates and all that they use."""
    found, left = set(), list(names)
    while left:
        name = left.pop()
        if name not in found:
            found.add(name)
            left += used[name]
    return found


def programs(root=ROOT):
    """Returns the names of the crates that are programs."""
    return [name for name in libraries(root) if (root / "crates" / name / "src/main.rt").is_file()]


def sum_of(program, root=ROOT):
    """Returns the sum of all that the build of a program reads: paths and bytes, in the order of the paths."""
    names = sorted(below(libraries(root), [program]))
    files = [it for name in names for part in PARTS for it in (root / "crates" / name / part).rglob("*") if it.is_file()]
    made = hashlib.sha256()
    for it in [root / "crates.txt", *sorted(files)]:
        data = it.read_bytes()
        made.update(f"{it.relative_to(root)}\0{len(data)}\0".encode())
        made.update(data)
    return made.hexdigest()


def sum_of_file(path):
    return hashlib.sha256(path.read_bytes()).hexdigest()


def beside(path, ending):
    return path.with_name(f"{path.name}.{ending}")


def record(path, sources, toolchain):
    """Writes beside a program what it was built from."""
    beside(path, "built").write_text(f"sources {sources}\nprogram {sum_of_file(path)}\ntoolchain {toolchain}\n", encoding="utf-8")


def record_of(path):
    """Returns the words that stand beside a program, by name; none where nothing does."""
    try:
        text = beside(path, "built").read_text(encoding="utf-8")
    except OSError:
        return {}
    return dict(line.split(" ", 1) for line in text.splitlines() if " " in line)


def fault_of(path, root=ROOT):
    """Returns why the answers of a program may not be those of the sources that stand here, or nothing. Where there are no sources, there is nothing to compare."""
    if not (root / "crates.txt").is_file():
        return ""
    said = record_of(path)
    name = path.relative_to(root) if path.is_relative_to(root) else path
    if said.get("program") != sum_of_file(path):
        return f"nothing says which sources {name} was built from; ./build makes it anew"
    if said.get("sources") != sum_of(path.name, root):
        return f"{name} was built from other sources than those that stand here; ./build makes it anew"
    return ""


def record_all(sums):
    """Records what the programs in crates/*/out were built from. Returns the status."""
    now = {name: sum_of(name) for name in programs()}
    changed = [name for name in now if sums and sums.get(name) != now[name]]
    if changed:
        print(f"the sources of {', '.join(changed)} have changed since the build began", file=sys.stderr)
        return 1
    version = toolchain()
    for name, made in now.items():
        path = ROOT / "crates" / name / "out" / name
        if path.is_file():
            record(path, made, version)
    return 0


def compare(path, sign):
    """Prints what is wrong with a program, and keeps the answer for this sign."""
    said = fault_of(path)
    try:
        beside(path, "compared").write_text(f"{sign}\n{said}\n", encoding="utf-8")
    except OSError:
        pass
    print(said)


def main(words):
    if words == ["sums"]:
        print(" ".join(f"{name}={sum_of(name)}" for name in programs()))
    elif words[:1] == ["record"] and len(words) <= 2 and all("=" in it for it in " ".join(words[1:]).split()):
        return record_all(dict(it.split("=", 1) for it in " ".join(words[1:]).split()))
    elif words[:1] == ["compare"] and len(words) == 3 and Path(words[1]).is_file():
        compare(Path(words[1]), words[2])
    else:
        print(__doc__, file=sys.stderr)
        return 2
    return 0


if __name__ == "__main__":
    sys.exit(main(sys.argv[1:]))

"""Where the LLVM module of a program comes from: of a proved program from `rattle build`, over what was proved; of an unproved one from `rt try`."""
import os
import shutil
import subprocess
import sys
from pathlib import Path

from keep import Kit, NoModule


def kit_folder():
    """The folder of the toolchain's kit."""
    found = shutil.which("rt")
    if not found:
        raise NoModule("there is no rt: README.md says what is needed")
    return Path(found).resolve().parent.parent


def library(kit):
    """The kit's own library of crates and commands."""
    sys.path.insert(0, str(kit / "bin"))
    import rtlib
    return rtlib


def is_current(crate):
    """Whether a crate's library is built from its present files: by the stamp that ./build leaves, or else, after rt ci, by the times of both."""
    if not os.path.isdir(crate.rlib):
        return False
    if os.path.isfile(f"{os.path.dirname(crate.rlib)}/stamp"):
        return crate.is_built()
    files = [it for part in ("src", "specs", "proofs") for it in Path(crate.folder, part).rglob("*")]
    return all(it.stat().st_mtime <= os.stat(crate.rlib).st_mtime for it in files)


def proved_module(kit, folder, room):
    """The module of a program whose libraries are proved and built, with clang's options: by the words with which `rt` builds it, but for the folder of the toolchain."""
    rtlib = library(kit)
    crate = rtlib.Crate(str(folder), str(folder.parent.parent), {})
    behind = [it.name for it in crate.below() if not is_current(it)]
    if behind:
        raise NoModule(f"{len(behind)} of the libraries are not built from what is here ({', '.join(behind[:3])} ..): run ./build first")
    links = Kit(kit, room / "kit", stops=False)
    # rattle builds nothing that it has not checked. What ./build has kept of its check of the program is not checked again; rt ci keeps nothing.
    kept = rtlib.KEPT if crate.has_kept() else []
    jobs = str(max(1, (os.cpu_count() or 2) // 2))
    words = [*crate.words(["--jobs", jobs], keeps=False), *kept, "--toolchain", str(links.toolchain), "--backend", "llvm", "-o", str(room / "native.o")]
    print("the program is checked as it was when it was proved" + ("" if kept else ": eight minutes of a processor"), flush=True)
    ran = subprocess.run([*rtlib.guarded(), rtlib.RATTLE, "build", *words], cwd=folder, stdin=subprocess.DEVNULL, capture_output=True, text=True, errors="replace", check=False)
    if ran.returncode:
        raise NoModule(f"rattle build failed with status {ran.returncode}: {(ran.stdout + ran.stderr)[-2000:]}")
    return links.module()


def unproved_module(kit, folder, room):
    """The module of `rt try`, with clang's options. What it does after the module is not needed."""
    links = Kit(kit, room / "kit", stops=True)
    subprocess.run([links.folder / "bin/rt", "try", "--seconds", "1", "--", "--version"], cwd=folder, stdin=subprocess.DEVNULL, capture_output=True, check=False)
    return links.module()


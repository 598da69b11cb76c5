"""Unproved programs and tests that run fast, by `rt try`.

`rt try` proves nothing and keeps nothing, and what it runs is slow, since it looks for faults of memory. But it takes its compiler and its linker from the folder of
its kit. So here it is run from a folder of links to the kit, in which the compiler looks for a fast program alone, and the linker keeps what it has linked."""
import shlex
import shutil
import tempfile
from contextlib import contextmanager
from pathlib import Path

# Both are called without an environment, in the folder where the work is done.
LINKER = """#!/bin/bash
(exec -a ld.lld {tool} "$@") || exit
while [ $# -gt 1 ] && [ "$1" != -o ]; do shift; done
/bin/cp "$2" {kept}
"""
COMPILER = """#!/bin/bash
words=()
for it in "$@"; do case $it in -O0) words+=(-O1) ;; -fsanitize=address) ;; *) words+=("$it") ;; esac; done
exec -a clang {tool} "${{words[@]}}"
"""


@contextmanager
def unproved():
    """Gives the command rt of a folder of links to the kit, and where what it links is kept: both as long as the folder stands."""
    kit = Path(shutil.which("rt")).resolve().parent.parent
    with tempfile.TemporaryDirectory(prefix="unproved-") as name:
        folder, kept = Path(name), Path(name) / "program"
        # What finds its kit by its own place is copied. Beside its work `rt try` has rattle look for names that a check would refuse, which takes as long.
        for part, own in (("", ("bin", "toolchain")), ("bin", ("rt", "rtlib.py", "rattle")), ("toolchain", ("bin",)), ("toolchain/bin", ("clang", "ld.lld"))):
            (folder / "kit" / part).mkdir(exist_ok=True)
            for it in (kit / part).iterdir():
                if it.name not in own:
                    (folder / "kit" / part / it.name).symlink_to(it.resolve())
        for it in ("rt", "rtlib.py"):
            if (kit / "bin" / it).is_file():
                shutil.copy(kit / "bin" / it, folder / "kit/bin")
        (folder / "kit/bin/rattle").symlink_to("/bin/true")
        for it, text in (("clang", COMPILER), ("ld.lld", LINKER)):
            at = folder / "kit/toolchain/bin" / it
            at.write_text(text.format(tool=shlex.quote(str((kit / "toolchain/bin" / it).resolve())), kept=shlex.quote(str(kept))))
            at.chmod(0o755)
        yield folder / "kit/bin/rt", kept

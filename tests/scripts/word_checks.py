"""How ./show reads its words, by the cases of words.json, with which tools/check-web tries web/words.js too."""
import json
import shutil

from script_checks import ROOT, SHOW, run, want

# Tells with which words it is called, and what it reads; but what there is to be said of its options is said by the program.
STAND_IN = """#!/bin/sh
for it; do [ "$it" != --help ] || exec {show} "$@"; done
printf '%s\\n' "$@"
exec cat
"""
FILES = ("a.cp", "b.cp", "1", "never", "--version")


def check_table(room):
    """Each case: the words that the program is given, and the file that it reads; or what is wrong with the words."""
    copy = room / "words"
    (copy / "tools").mkdir(parents=True)
    stand_in = copy / "crates/cpx_show/out/cpx_show"
    stand_in.parent.mkdir(parents=True)
    for name in ("show", "tools/run-program"):
        shutil.copy(ROOT / name, copy / name)
    stand_in.write_text(STAND_IN.format(show=SHOW))
    stand_in.chmod(0o755)
    for name in FILES:
        (copy / name).write_text(f"this is {name}")
    for case in json.loads((ROOT / "tests/scripts/words.json").read_text()):
        status, out, said = run("./show", *case["words"], source=b"this is standard input", folder=copy)
        what = f"./show {case['words']}"
        if "refused" in case:
            want(what, (status, out, said.startswith(f"./show: {case['refused']}")), (2, "", True))
        elif "--help" in case["read"]:
            want(what, (status, out, said), run(SHOW, *case["read"]))
        else:
            want(what, (status, out, said), (0, "\n".join([*case["read"], f"this is {case['file'] or 'standard input'}"]), ""))

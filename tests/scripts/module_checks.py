"""./show where no built program stands: the module of cpx.html answers under node, if it is made of the sources that are here, or if there is no rt."""
import os
import re
import shutil

from script_checks import DISPLAYS, ROOT, run, want

PAGE = ROOT / "cpx.html"
SAID = "no proved build here: the module of cpx.html answers, under node (./build makes a program that is faster)\n"


def check_module(room):
    if not PAGE.is_file() or not shutil.which("node"):
        print("no cpx.html, or no node: ./show is not tried with its module")
        return
    copy = room / "module"
    for name in ("show", "tools/run-program", "cpx.html", *(f"web/{it}" for it in ("cpx.mjs", "module.js", "program.js", "words.js", "package.json"))):
        (copy / name).parent.mkdir(parents=True, exist_ok=True)
        shutil.copy(ROOT / name, copy / name)
    (copy / "crates/cpx_show").mkdir(parents=True)
    # The commands of the system and node, without rt.
    commands = copy / "commands"
    commands.mkdir()
    for name in ("node", "bash", "dirname", "env", "python3", "readlink", "sed", "sh"):
        (commands / name).symlink_to(shutil.which(name))
    show = lambda *words: run("./show", *words, folder=copy, path=str(commands))
    wanted = run("node", "web/cpx.mjs", "outcomes", "--choices", "5", DISPLAYS)
    want("the module, and no rt", show("outcomes", "--choices", "5", DISPLAYS), (*wanted[:2], SAID))
    want("the module, and two files", show("outcomes", "a.cp", "b.cp"), (2, "", f"{SAID}./show: one program at a time: a.cp, and b.cp\n"))
    put(commands / "rt", "")
    put(copy / "tools/first-look", "echo a first look >&2; exit 1")
    sources = re.search(r'<meta name="cpx-sources" content="([0-9a-f]*)">', PAGE.read_text())[1]
    for what, made, answer in (("its sources", sources, (*wanted[:2], SAID)), ("other sources", "0" * 64, (127, "", "a first look\n"))):
        (copy / "tools/sources.py").write_text(f"def sum_of(program):\n    return {made!r}\n")
        want(f"the module, {what} and an rt", show("outcomes", "--choices", "5", DISPLAYS), answer)


def put(file, text):
    file.write_text(f"#!{os.path.realpath(shutil.which('sh'))}\n{text}\n")
    file.chmod(0o755)

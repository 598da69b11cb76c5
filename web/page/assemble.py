"""assemble.py: puts the page together: markup, style, scripts, editor library, examples and rules, and the module."""
import base64
import hashlib
import json
import re
from pathlib import Path

from rules import rules_of

PAGE = Path(__file__).resolve().parent
WEB = PAGE.parent
ROOT = WEB.parent
IMPORT = re.compile(r'^import (?:[^;]*? from )?"(\./|\.\./)([^"]+)";\n', re.M)
COMMENT = re.compile(r"^[ \t]*//.*\n", re.M)
DECLARED = re.compile(r"^(?:export )?(?:async )?(?:const|let|function|class) (\w+)", re.M)


def page_of(program, about):
    """The bytes of the page. `program` is the module with gzip, in base64; `about` has the version, the checksum of the sources, and whether the module is proved."""
    scripts = {"EDITOR": licensed("codemirror.js"), "APP": f'"use strict";\n(() => {{\n{bundled(PAGE / "main.js")}}})();\n'}
    styles = {"EDITOR_STYLE": licensed("codemirror.css"), "STYLE": (PAGE / "style.css").read_text()}
    parts = {
        **scripts,
        **styles,
        "POLICY": policy(scripts.values(), styles.values()),
        "VERSION": about["version"],
        "SOURCES": about["sources"],
        "PROVED": "yes" if about["proved"] else "no",
        "TITLE": "cpx: every schedule of a program" if about["proved"] else "cpx, unproved, for trying",
        "WORKER": bundled(PAGE / "worker.js"),
        "EXAMPLES": inert([{"name": it.stem, "source": it.read_text()} for it in examples()]),
        "RULES": inert(rules_of((ROOT / "docs/RULES.md").read_text())),
        "PROGRAM": program,
    }
    for name in ("APP", "EDITOR", "WORKER"):
        if re.search(r"</script|<!--", parts[name], re.I):
            raise SystemExit(f"assemble: {name} would end its own script")
    return re.sub(r"\{\{([A-Z_]+)\}\}", lambda found: parts[found[1]], (PAGE / "page.html").read_text()).encode()


def examples():
    """The examples in the order of their table, simple ones first."""
    named = re.findall(r"^\| `([\w-]+)` \|", (ROOT / "examples/README.md").read_text(), re.M)
    files = {it.stem: it for it in sorted((ROOT / "examples").glob("*.cp"))}
    return [files[name] for name in named if name in files] + [it for name, it in files.items() if name not in named]


def inert(value):
    """JSON that neither ends nor begins anything in the page."""
    return json.dumps(value, ensure_ascii=True).replace("<", "\\u003c").replace("&", "\\u0026")


def licensed(name):
    """A file of the editor library without the lines that are comments alone, behind its licence, which asks to go with each copy."""
    return f"/*\n{editor_file('LICENSE')}*/\n{COMMENT.sub('', editor_file(name))}"


def editor_file(name):
    """A file of the editor library, as its checksum says."""
    text = (WEB / "editor" / name).read_bytes()
    wanted = dict(reversed(line.split()) for line in (WEB / "editor/checksums").read_text().splitlines())
    if hashlib.sha256(text).hexdigest() != wanted[name]:
        raise SystemExit(f"assemble: web/editor/{name} is not the file of its checksum")
    return text.decode()


def policy(scripts, styles):
    """Nothing is loaded from outside and nothing is sent. The frame for playing inherits this policy, so the hashes of its page stand here, too."""
    markup = (ROOT / "crates/cp_page/src/markup.rt").read_text()
    of_frame = lambda name: f"'sha256-{re.search(rf'{name}: &str = .([^;]*).;', markup)[1]}'"
    hashes = lambda texts: " ".join(f"'sha256-{base64.b64encode(hashlib.sha256(it.encode()).digest()).decode()}'" for it in texts)
    return "; ".join([
        "default-src 'none'",
        f"script-src {hashes(scripts)} {of_frame('SCRIPT_HASH')} 'wasm-unsafe-eval'",
        f"style-src {hashes(styles)} {of_frame('STYLE_HASH')}",
        "img-src data: blob:",
        "worker-src blob:",
        "frame-src blob:",
        "connect-src 'none'",
        "base-uri 'none'",
        "form-action 'none'",
    ])


def bundled(main):
    """One script of a module and of all that it imports, each behind what it needs. All share one scope, so each name may be declared once."""
    texts = {}

    def add(path):
        if path in texts:
            return
        texts[path] = ""
        source = path.read_text()
        for found in IMPORT.finditer(source):
            add((path.parent / (found[1] + found[2])).resolve())
        texts[path] = texts.pop(path) + re.sub(r"^export (?!\{)", "", IMPORT.sub("", source), flags=re.M)

    add(main.resolve())
    names = [name for text in texts.values() for name in DECLARED.findall(text)]
    twice = sorted({name for name in names if names.count(name) > 1})
    if twice:
        raise SystemExit(f"assemble: declared in two modules of the page: {', '.join(twice)}")
    return "\n".join(texts.values())

"""The pages of wrong edits that tools/try-edits tries: what each changes, and which functions of its crate it touches.

It reads sources as rt fmt lays them out: what begins and ends an item stands at the item's own indent."""
import functools
import re
from dataclasses import dataclass
from pathlib import Path

ROOT = Path(__file__).resolve().parents[2]
IMPL = re.compile(r"(?:unsafe )?impl(?:<(.*?)>)?\s+(?:([\w:]+)(?:<(.*?)>)?\s+for\s+)?(?:&(?:'\w+ )?)?([\w:]+)")
FUNCTION = re.compile(r"(?:pub(?:\([\w ]+\))? )?(?:const )?fn (\w+)")
TYPE = re.compile(r"^(?:pub(?:\(\w+\))? )?(?:struct|enum) (\w+)", re.M)
NAMED_ITEM = re.compile(r"(?:const|static|struct|enum|macro_rules!|type) (\w+)")
DEFINED = re.compile(r"(?:(?:pub|abbrev|unfoldable|data|record|infix\w*|rec) )*([^\s:{(]+)")
WORD = re.compile(r"[^\s(){}\[\].,;:@\"`]+")


# Crates and pages.


@functools.lru_cache(maxsize=None)
def crates_listed():
    """The crates of crates.txt, each with the libraries that it names."""
    rows = (re.match(r"(\w+)[^:#]*:(.*)", it) for it in (ROOT / "crates.txt").read_text(encoding="utf-8").splitlines())
    return {it[1]: it[2].split() for it in rows if it}


@functools.lru_cache(maxsize=None)
def below(crate):
    """The repository's crates below one, each once, after those that it uses."""
    found = {}
    for it in crates_listed()[crate]:
        if it in crates_listed():
            found.update(dict.fromkeys((*below(it), it)))
    return tuple(found)


class Page:
    """A page that says an edit: its pairs of texts, each with its file. A control begins with 'control: WHY'."""

    def __init__(self, path, text):
        self.path, self.crate, self.name = path, path.parent.parent, f"{path.parent.parent.name}/{path.stem}"
        self.pairs, self.stray, self.is_control, file, old = [], None, text.startswith("control: "), None, None
        for line in text.splitlines():
            word, _, rest = line.partition(" ")
            if word == "file:":
                file = rest.strip()
            elif word == "old:":
                old = rest
            elif word == "new:" and file and old:
                self.pairs.append((file, old, rest))
                old = None
            elif line.startswith(" "):
                self.stray = line.strip()

    def applied(self, texts):
        """These texts of the crate, by file, with the edit; those that are not given are read."""
        texts = dict(texts)
        for file, old, new in self.pairs:
            text = texts.get(file) or (self.crate / file).read_text(encoding="utf-8")
            if text.count(old) != 1:
                raise ValueError(f"found {text.count(old)} times in {file}: {old.strip()}")
            texts[file] = text.replace(old, new)
        return texts

    def fault(self):
        """Why the edit can't be applied, or None."""
        try:
            self.applied({})
        except (OSError, ValueError) as why:
            return str(why)
        if self.stray:
            return f"a text is one line, and this is a second one: {self.stray}"
        return None if self.pairs else "it has no 'old:' and 'new:'"


@functools.lru_cache(maxsize=None)
def pages():
    """All pages of edits, lowest crate first. A README is none, nor is an edit of another crate's definitions, which begins with 'of: '."""
    paths = [it for crate in crates_listed() for it in sorted((ROOT / "crates" / crate / "must-fail").glob("*.md"))]
    texts = {it: it.read_text(encoding="utf-8") for it in paths}
    return [Page(it, text) for it, text in texts.items() if it.name != "README.md" and not text.startswith("of: ")]


def promised_edits():
    """The names of the edits that tables of documents name beside a promise."""
    found = set()
    for name in ("PROOFS", "WRONG-BODIES", "LANGUAGE", "RULES", "SEMANTICS", "REPORT", "SHOW"):
        columns = []
        for line in (ROOT / f"docs/{name}.md").read_text(encoding="utf-8").splitlines():
            cells = [it.strip() for it in line.strip("|").split("|")] if line.startswith("|") else []
            if "wrong edits" not in columns or not cells:
                columns = cells
                continue
            for crate, edits in re.findall(r"`(\w+)`([^;`]*)", cells[columns.index("wrong edits")]):
                found |= {f"{crate}/{it}" for it in re.findall(r"[\w-]+", edits)}
    return found


# Functions and definitions of a crate.


@dataclass(eq=False)
class Function:
    """A function: its file, the lines of its head with the contract and of its body, its name in the file and in the crate, and its cycle."""

    file: str
    local: tuple
    cycle: str
    start: int
    body: int
    end: int
    calls_itself: bool
    path: tuple = ()

    def name(self):
        return "::".join(self.path)

    def folder(self):
        """Where its proof stands below proofs/."""
        own = self.path[-1] if self.calls_itself else self.cycle
        return (*self.path[:-1], f"+{own}") if own else self.path

    def text(self, crate, has_body=True):
        lines = source(crate)[1][self.file].split("\n")
        return "\n".join(lines[self.start : self.end + 1 if has_body else self.body])


def function_at(file, local, cycle, start, lines):
    """The function whose head begins in this line."""
    margin = re.match(r" *", lines[start])[0]
    ends = (f"{margin}}}", f"{margin}{{}}")
    end = start if lines[start].endswith("}") else next(at for at in range(start + 1, len(lines)) if lines[at] in ends)
    body = next((at for at in range(start, end + 1) if re.match(rf"{margin}(\S.*)?\{{\s*\}}?$", lines[at])), start)
    # (in a method the bare name is that of another function)
    before = r"\b(Self::|self\.)" if len(local) > 1 else r"(?<![\w.:])"
    calls = re.search(rf"{before}{local[-1]}\(", "\n".join(lines[body + 1 : end]))
    return Function(file, local, cycle, start, body, end, not cycle and calls is not None)


def owner_of(generic, trait, arguments, own):
    """The name of an impl: its type, its trait, and the types that the trait is applied to, but those that are variables of the impl."""
    variables = re.findall(r"(?:^|, )(?:const )?('?\w+)", generic or "")
    named = [it for it in (it.strip() for it in (arguments or "").split(",")) if re.fullmatch(r"[\w:]+", it) and it not in variables]
    words = [it.split("::")[-1] for it in (own, trait or "", *named)]
    return words[0][0].upper() + words[0][1:] + "".join(words[1:])


def functions_of(file, text):
    """The functions of a source with a proof of their own: those of the file and of its impls."""
    lines, found, owner, cycle = text.split("\n"), [], (), None
    for number, line in enumerate(lines):
        if found and number <= found[-1].end:
            continue
        bare, head = line.strip(), IMPL.match(line)
        if head:
            # (a drop is passed over: it is proved fast, and its name is not made as those of other impls)
            owner = None if head[2] == "Drop" else (owner_of(*head.groups()),)
        elif re.match(r"(pub )?trait ", line):
            owner = None
        elif line.startswith("}"):
            owner = ()
        cycle = (re.match(r"#\[cycle\((\w+)\)\]", bare) or (None, cycle))[1]
        head = FUNCTION.match(bare)
        if head and owner is not None and len(line) - len(line.lstrip()) == 4 * len(owner):
            found.append(function_at(file, (*owner, head[1]), cycle, number, lines))
        if head:
            cycle = None
    return found


@functools.lru_cache(maxsize=None)
def source(crate):
    """The functions of a crate, and the text of each of its files of code."""
    texts = {str(it.relative_to(crate)): it.read_text(encoding="utf-8") for it in sorted((crate / "src").rglob("*.rt"))}
    module = {file: tuple(it for it in Path(file).with_suffix("").parts[1:] if it not in ("lib", "main", "mod")) for file in texts}
    # A method stands with its type, wherever its impl is written.
    types = {name: module[file] for file, text in texts.items() for name in TYPE.findall(text)}
    found = [it for file, text in texts.items() for it in functions_of(file, text)]
    for it in found:
        own = types.get(it.local[0]) if len(it.local) > 1 else None
        it.path = (*(module[it.file] if own is None else own), *it.local)
    return found, texts


def definitions_of(file, text):
    """The definitions of a text: the file, the name, the first line and the text of each."""
    found, name, start, lines = [], None, 0, text.split("\n")
    for number, line in enumerate([*lines, "end"]):
        word = DEFINED.match(line)
        if not word or line.startswith(("--", "use ", "mod ", "pub mod", "pub use", "}", ")")) or word[1] == name:
            continue
        if name:
            found.append((file, name, start, "\n".join(lines[start:number])))
        name, start = word[1], number
    return found


@functools.lru_cache(maxsize=None)
def definitions(crate):
    """The definitions of a crate."""
    paths = sorted((crate / "specs").rglob("*.antt"))
    return [it for path in paths for it in definitions_of(str(path.relative_to(crate)), path.read_text(encoding="utf-8"))]


def definitions_turned(page):
    """The definitions that an edit changes, each with its file."""
    found = set()
    for file, old, _ in page.pairs:
        text = (page.crate / file).read_text(encoding="utf-8")
        if file.startswith("specs/") and not old.startswith("use ") and old in text:
            line = text[: text.index(old)].count("\n")
            found |= {(file, name) for where, name, start, own in definitions(page.crate) if where == file and start <= line <= start + own.count("\n")}
    return found


# What an edit touches.


def citing(crate, names):
    """The functions of a crate whose contracts come to one of these definitions."""
    names, was = set(names), 0
    while len(names) > was:
        was = len(names)
        names |= {name for _, name, _, text in definitions(crate) if names & {*WORD.findall(text)}}
    functions, texts = source(crate)
    names |= {new for text in texts.values() for old, new in re.findall(r"([^\s{},]+) as ([^\s{},]+)", text) if old in names}
    return [it for it in functions if names & {*WORD.findall(it.text(crate, has_body=False))}]


def naming(crate, word):
    return [it for it in source(crate)[0] if re.search(rf"\b{word}\b", it.text(crate))]


def functions_touched_in(crate, file, line):
    """The functions that a change of this line touches; none where that can't be told."""
    if file.startswith("specs/"):
        return citing(crate, [name for where, name, start, text in definitions(crate) if where == file and start <= line <= start + text.count("\n")])
    inside = [it for it in source(crate)[0] if it.file == file and it.start <= line <= it.end]
    for it in list(inside):
        # Whoever calls it has its contract.
        inside += naming(crate, it.path[-1]) if line < it.body else []
    if inside:
        return inside
    # A constant, a type or a macro: the functions that name it.
    above = "\n".join(source(crate)[1][file].split("\n")[max(0, line - 15) : line + 1])[-600:]
    names = NAMED_ITEM.findall(above)
    return naming(crate, names[-1]) if names else []


def functions_touched(page):
    """The functions whose check tries an edit; none where only the whole crate's does."""
    wanted = {}
    for file, old, _ in page.pairs:
        text = (page.crate / file).read_text(encoding="utf-8")
        # (a pair may stand in what an earlier one made, and an import touches what names it)
        if old in text and not file.startswith("proofs/") and not old.startswith("use "):
            found = functions_touched_in(page.crate, file, text[: text.index(old)].count("\n"))
            if not found:
                return []
            wanted.update({it.name(): it for it in found})
    return list(wanted.values())

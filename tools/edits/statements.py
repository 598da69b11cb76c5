"""What the refusal of an edit stands on, and a checksum of it: what the edit changes, the function that was not proved, and all
statements to which these come by name.

An item is a definition, a function, a type with what its impls say of it, a trait, a constant or a macro. The check of a function reads its own text, and of all
others statements: a definition, a type or a trait whole, and the head of a function with its contract. A checksum has no names of items, modules, crates and
files, no comments and no layout: a name counts as the statement that it leads to. Names of fields, constructors and variables count as they were before
records/renames.
"""
import functools
import hashlib
import re
from dataclasses import dataclass, field

from edits.edit_pages import IMPL, ROOT, TYPE, below, crates_listed, definitions_of, functions_of, source

RENAMES = ROOT / "records/renames"
# (a point before a blank is that of a function without a name)
SPEC_TOKEN = re.compile(r"[^\s(){}\[\].,;:@\"`]+|\.(?=\s)\s|[(){}\[\].,;:@\"`]")
CODE_TOKEN = re.compile(r"[\w◌]+'*|\.(?=\s)\s|\S")
PART = re.compile(r"(?m)^ +(?:pub |ghost )*([^\s:(){}]+)(?: :|:| \{|,|\()")
ITEM = re.compile(r"(?:pub(?:\([\w ]+\))? )?(const|static|type|trait|macro_rules!|union) ?(\w+)")
SPEC_USE = re.compile(r"(?m)^\s*(pub )?(?:ghost )?(?:pub )?use Rattle\.(\w+)\.specs\.([\w.]+?)(?:\.\{([^}]*)\}| as (\w+))?;?$")
CODE_USE = re.compile(r"(?m)^\s*(?:pub )?use (\w+::[^;]*);")
NO_ITEM = re.compile(r"[\s#)\]]|//|(pub(\(\w+\))? |ghost )?(use|mod)\b")
ROUNDS = 4


def digest(*parts):
    return hashlib.sha256("\0".join(parts).encode()).hexdigest()[:16]


@functools.lru_cache(maxsize=None)
def renames():
    """The lines of records/renames: a kind, an old name and a new one."""
    lines = RENAMES.read_text(encoding="utf-8").splitlines() if RENAMES.exists() else []
    return [tuple(it.split()) for it in lines if it.strip() and not it.startswith("#")]


@functools.lru_cache(maxsize=None)
def first_name(word, *kinds):
    """The name that a word had before all renames of words, and of these kinds."""
    for kind, old, new in reversed(renames()):
        word = old if word == new and kind in ("word", *kinds) else word
    return word


# Items.


@dataclass(eq=False)
class Item:
    """An item of a file: its name, the type that it is a method of, the text that others read of it, and the rest, which its own check reads."""

    crate: str
    file: str
    name: str
    owner: str
    statement: str
    body: str = ""
    parts: frozenset = frozenset()
    refers: list = field(default_factory=list)
    words: list = field(default_factory=list)

    def is_code(self):
        return self.file.endswith(".rt")


def without_comments(lines):
    return "\n".join(it for it in lines if not it.lstrip().startswith(("--", "//", "#[", "ghost use ")))


def items_of(crate, file, text):
    """The items of a text."""
    if file.endswith(".rt"):
        return code_items(crate, file, text)
    made = ((name, without_comments(own.split("\n"))) for _, name, _, own in definitions_of(file, text))
    return [Item(crate, file, name, "", own, parts=parts_of(own) if re.match(r"(\w+ )*(data|record) ", own) else frozenset()) for name, own in made]


def parts_of(text):
    return frozenset(PART.findall(text))


def end_of(lines, start):
    """The last line of what begins in a line without an indent."""
    if lines[start].endswith((";", "}")):
        return start
    ends = (at for at in range(start + 1, len(lines)) if lines[at].startswith(("}", ")", "]")) or lines[at].endswith(";") and not lines[at].startswith("    "))
    return next(ends, start)


def code_items(crate, file, text):
    """The items of a text of code. What the impls of a type say of it is read with it, and what an impl says with its functions."""
    lines, functions = text.split("\n"), {it.start: it for it in functions_of(file, text)}
    inside = {at for it in functions.values() for at in range(it.start, it.end + 1)}
    found, said, number, owner, of_impl = [], {}, 0, "", []
    while number < len(lines):
        line, head = lines[number], IMPL.match(lines[number])
        end = functions[number].end if number in functions else end_of(lines, number)
        if number in functions:
            it = functions[number]
            start = max(it.body, it.start + 1)
            statement = without_comments([*of_impl, *lines[it.start : start]])
            found.append(Item(crate, file, it.local[-1], owner if len(it.local) > 1 else "", statement, without_comments(lines[start : end + 1])))
        elif head:
            owner, of_impl = head[4].split("::")[-1], [lines[at] for at in range(number, max(end, number + 1)) if at not in inside]
            if head[2] and head[2] != "Drop":
                said.setdefault(owner, []).extend(of_impl)
            end = number
        elif line.startswith("}"):
            owner, of_impl = "", []
        elif line and number not in inside and not NO_ITEM.match(line):
            named = TYPE.match(line) or ITEM.match(line)
            own = without_comments(lines[number : end + 1])
            found += [Item(crate, file, named[named.lastindex], "", own, parts=parts_of(own))] if named else []
        else:
            end = number
        number = end + 1
    for it in found:
        it.statement += without_comments(["", *said.get(it.name, [])]) if it.parts and not it.owner else ""
    return found


# What names lead to.


class Scope:
    """What the names of a file lead to, and the modules that it names."""

    def __init__(self, world, crate, file, text, items):
        self.named, self.modules = {}, {}
        for own in items:
            if not own.owner:
                self.add(own.name, [(own, "")])
                for part in own.parts if not own.is_code() else ():
                    self.add(part, [(own, part)])
        for _, other, module, names, alias in SPEC_USE.findall(text):
            if alias:
                self.modules[alias] = other, module
            for name in filter(None, (it.strip() for it in names.split(","))):
                name, _, alias = name.partition(" as ")
                self.add(alias or name, world.in_specs(other, module, name))
        for path in CODE_USE.findall(text):
            for words, alias in flattened(path):
                self.add(alias or words[-1], world.in_code(crate if words[0] in ("crate", "self", "super") else words[0], words[1:-1], words[-1]))

    def add(self, word, found):
        # (a part of an operator, as if◌then◌else◌, is a word of its own)
        for it in filter(None, word.split("◌")):
            self.named.setdefault(it, []).extend(found)


def flattened(path):
    """The paths that a `use` of code names, each with its alias."""
    path = " ".join(path.split())
    head, brace, rest = path.partition("{")
    if not brace:
        words, _, alias = path.partition(" as ")
        return [(words.strip().split("::"), alias.strip())]
    names, depth, start = rest.rstrip("} "), 0, 0
    found = []
    for at, letter in enumerate(names + ","):
        depth += (letter == "{") - (letter == "}")
        if letter == "," and depth == 0:
            if names[start:at].strip():
                found += flattened(head + names[start:at].strip())
            start = at + 1
    return found


class World:
    """All items of the crates, with what they refer to."""

    def __init__(self):
        self.files, self.texts, self.scopes, self.specs, self.code, self.methods, self.handed = {}, {}, {}, {}, {}, {}, {}
        for crate in crates_listed():
            for part in ("specs", "src"):
                folder = ROOT / "crates" / crate
                for path in sorted(it for it in (folder / part).rglob("*") if it.suffix in (".antt", ".rt")):
                    self.read(crate, str(path.relative_to(folder)), path.read_text(encoding="utf-8"))
        for (crate, file), text in self.texts.items():
            self.scopes[crate, file] = Scope(self, crate, file, text, self.files[crate, file])
        self.items = [it for own in self.files.values() for it in own]
        for it in self.items:
            it.words, it.refers, _ = self.resolved(it, it.statement, self.scopes[it.crate, it.file])
        self.sums = {it: digest(*it.words) for it in self.items}
        for _ in range(ROUNDS):
            self.sums = {it: digest(*it.words, *(self.sums[other] for other in it.refers)) for it in self.items}

    def read(self, crate, file, text):
        self.texts[crate, file], self.files[crate, file] = text, items_of(crate, file, text)
        for _, other, module, names, _ in (it for it in SPEC_USE.findall(text) if it[0] and file.endswith(".antt")):
            for name in filter(None, (it.strip() for it in names.split(","))):
                old, _, new = name.partition(" as ")
                self.handed[crate, file, new or old] = other, module, old
        for it in self.files[crate, file]:
            place = self.methods if it.owner else self.code if it.is_code() else self.specs
            place.setdefault((crate, it.name), []).append(it)
            for part in it.parts if not it.is_code() else ():
                self.specs.setdefault((crate, part), []).append(it)

    def in_specs(self, crate, module, name):
        """The items that a name of a module of definitions leads to, each with the part that is meant."""
        words = module.split(".")
        if words[0] == "declared":
            types = [it for it in words[1:] if it[0].isupper() and it != "TheVariants"]
            found = self.in_code(crate, [it for it in words[1:] if not it[0].isupper()], types[-1] if types else name)
            return [(it, part or (name if types and name != types[-1] else "")) for it, part in found]
        file = f"specs/{'/'.join(words)}.antt"
        if (crate, file, name) in self.handed:
            return self.in_specs(*self.handed[crate, file, name])
        found = [it for it in self.specs.get((crate, name), []) if it.file == file] or self.specs.get((crate, name), [])
        return [(it, "" if it.name == name else name) for it in found]

    def in_code(self, crate, modules, name):
        found = self.code.get((crate, name), [])
        own = [it for it in found if modules and it.file.startswith((f"src/{'/'.join(modules)}.", f"src/{'/'.join(modules)}/"))]
        return [(it, "") for it in own or found]

    def resolved(self, item, text, scope):
        """The words of a text, of those that lead to items only the number of the item, these items, and the places of its calls of methods of any type."""
        words, refers, calls, is_code = [], {}, [], item.is_code()
        tokens = (CODE_TOKEN if is_code else SPEC_TOKEN).findall(text)
        for at, token in enumerate(tokens):
            before = tokens[at - 1] if at else ""
            if is_code and before == "." and tokens[at + 1 : at + 2] in (["("], [":"]):
                calls.append((at, token, {item.owner} if tokens[at - 2] == "self" else set()))
            found = self.meant(item, scope, tokens, at) if before in (".", ":") else scope.named.get(token)
            words.append(" ".join(f"@{refers.setdefault(it, len(refers))}{first_name(part)}" for it, part in found) if found else first_name(token))
        return words, [*refers], calls

    def meant(self, item, scope, tokens, at):
        """The items that a token leads to; none where it is a field or a method."""
        token, before = tokens[at], tokens[max(0, at - 3) : at]
        if before[-1:] == ["."]:
            return self.in_specs(*scope.modules[before[-2]], token) if len(before) > 1 and before[-2] in scope.modules else []
        if item.is_code() and before[-2:] == [":", ":"] and len(before) > 2:
            owners = {item.owner} if before[0] == "Self" else {it.name for it, _ in scope.named.get(before[0], [])} or {before[0]}
            return [(it, "") for it in self.methods_of(item.crate, token, owners)] or self.in_code(item.crate, [before[0]], token)
        return scope.named.get(token, [])

    def methods_of(self, crate, name, owners):
        """The methods of this name that types of these names have, in a crate and those below."""
        return [it for other in (crate, *below(crate)) for it in self.methods.get((other, name), []) if it.owner in owners]

    def whole(self, item, scope):
        """A sum of the whole text of an item, and the items to which it comes. A method that it calls is one of a type to which it comes."""
        words, refers, calls = self.resolved(item, f"{item.statement}\n{item.body}", scope)
        found, count = {}, -1
        while len(found) > count:
            count = len(found)
            types = {it.name for it in reached([*refers, *found], Item.is_code) if not it.owner}
            found.update((it, name) for _, name, own in calls for it in self.methods_of(item.crate, name, own or types))
        for at, name, _ in calls:
            words[at] = "@" + ",".join(sorted(self.sums[it] for it in found if it.name == name)) if name in found.values() else words[at]
        return digest(*words, *(self.sums[it] for it in refers)), [*refers, *found]

    @functools.lru_cache(maxsize=None)
    def as_it_is(self, item):
        return self.whole(item, self.scopes[item.crate, item.file])


def reached(items, follows=lambda _: True):
    """All to which these items come, by those that are followed."""
    seen, left = set(items), list(set(items))
    while left:
        new = {it for it in left.pop().refers if it not in seen and follows(it)}
        seen |= new
        left += new
    return seen


@functools.lru_cache(maxsize=None)
def world():
    return World()


# The checksum of an edit.


def changed(page):
    """The sums of what an edit changes, before and after, and the items to which this comes."""
    sums, all_refers = [], []
    for file in dict.fromkeys(file for file, _, _ in page.pairs):
        crate, own = page.crate.name, []
        if (crate, file) in world().texts:
            text, now = world().texts[crate, file], page.applied({})[file]
            before, after = world().files[crate, file], items_of(crate, file, now)
            scopes = world().scopes[crate, file], Scope(world(), crate, file, now, before)
            is_import = [it for it in text.split("\n") if "use " in it] != [it for it in now.split("\n") if "use " in it]
            for items, others, scope, sign in ((before, after, scopes[0], "-"), (after, before, scopes[1], "+")):
                texts = {(it.statement, it.body) for it in others if not is_import}
                own += [(sign, *world().whole(it, scope)) for it in items if (it.statement, it.body) not in texts]
        texts = [it for where, *pair in page.pairs if where == file for it in pair]
        sums += [sign + number for sign, number, _ in own] or [digest(*map(first_name, CODE_TOKEN.findall(it))) for it in texts]
        all_refers += [it for _, _, refers in own for it in refers]
    return sums, all_refers


def functions_by(page, by):
    """The functions of a page's crate with this name; all items where it is 'crate'. None where there are none."""
    crate = page.crate.name
    own = [it for (name, _), items in world().files.items() if name == crate for it in items]
    if by == "crate":
        return own
    last = [first_name(it, "item") for it in by.split("::")]
    paths = {it: [first_name(word, "item") for word in it.path] for it in source(page.crate)[0]}
    # (its module may have moved)
    found = next((some for at in range(len(last)) if (some := [it for it, path in paths.items() if path[at - len(last) :] == last[at:]])), [])
    places = {(it.file, it.local[-1]) for it in found}
    return [it for it in own if (it.file, it.name) in places]


@functools.lru_cache(maxsize=None)
def checksum(page, by):
    """A checksum of what the refusal of an edit stands on, if this function was not proved, or, where it is 'crate', something in its crate. Nothing where there
    is no such function, or the edit can't be applied."""
    functions = functions_by(page, by)
    if not functions or page.fault():
        return ""
    sums, refers = changed(page)
    for it in functions:
        number, own = world().as_it_is(it)
        sums, refers = [*sums, number], [*refers, *own]
    return digest(*sorted(sums), *sorted({world().sums[it] for it in reached(refers)}))

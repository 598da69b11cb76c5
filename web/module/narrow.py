"""A module for pointers of 64 bits as one for 32. In memory a pointer keeps its eight bytes, of which the upper four are zero, so that every offset which the module
names stays what it is; numbers that hold addresses keep their 64 bits. What is rewritten: loads and stores of pointers and of structures with one, places for one on the
stack, constants with one, and `ptrtoaddr`. It rests on how Rattle writes modules: each offset is counted in bytes (`getelementptr i8`)."""
import re
from itertools import count

SIZE = {"i1": 1, "i8": 1, "i16": 2, "i32": 4, "float": 4, "i64": 8, "double": 8, "ptr": 8, "i128": 16}
NAME = r'(?:[%@]"[^"]*"|[%@][\w.$]+)'
STORE = re.compile(rf"(\s+)store ptr (.+), ptr ({NAME}), align (\d+)")
LOAD = re.compile(rf"(\s+)(%\S+) = load ptr, ptr ({NAME}), align (\d+)")
STRUCTURE = re.compile(rf"(\s+)(%\S+) = load (\{{ [^{{}}]*\bptr\b[^{{}}]* \}}), ptr ({NAME}), align (\d+)")
# What none of these rules is for, and what would be left with pointers of four bytes in memory.
UNKNOWN = re.compile(
    r"\b(load|store) .*\bptr\b.*, ptr |\b(load|store) (volatile |atomic )*ptr\b|\balloca .*\bptr\b|\bgetelementptr (?!(inbounds |nuw |nusw )*\(?i8,)"
    r"|\bcmpxchg [^,]*, ptr|\batomicrmw [^,]*, ptr|\bptrtoaddr\b|\bva_arg\b|\b(byval|sret|inalloca|preallocated)\("
)
# Texts between quotes are bytes, and stay.
TEXT = re.compile(r'(c?"(?:[^"\\]|\\.)*")')
# A constant with pointers: its type and its value, both packed structures. And a pointer in the value.
PACKED = re.compile(r"(@.* (?:constant|global) )(<\{ .* \}>) (<\{ .*)")
POINTER = re.compile(r"\bptr (getelementptr [^()]*\([^()]*\)|@[\w.$]+(?=[,\s}])|null)")


class NoRule(Exception):
    """A line of a form that is not known."""


def narrow_constant(line):
    """A global: behind each pointer of four bytes stand four more."""
    plain = TEXT.sub("", line)
    if not re.search(r"\bptr\b", plain):
        return line
    found = PACKED.match(line)
    if not found:
        raise NoRule(line)
    begin, kind, value = found.groups()
    parts = TEXT.split(value)
    parts[::2] = [POINTER.sub(r"ptr \1, i32 0", it) for it in parts[::2]]
    return begin + re.sub(r"\bptr\b", "ptr, i32", kind) + " " + "".join(parts)


def narrow_structure(found, names):
    """The lines that load a structure field by field, each from where it stands in a layout of 64 bits."""
    space, name, kind, place, align = found.groups()
    fields, at, whole, lines = kind[2:-2].split(", "), 0, "poison", []
    for number, field in enumerate(fields):
        size, read = SIZE[field], "i64" if field == "ptr" else field
        at = -(-at // size) * size
        new = next(names)
        lines.append(f"{space}{new} = getelementptr i8, ptr {place}, i64 {at}")
        lines.append(f"{space}{new}.value = load {read}, ptr {new}, align {min(size, int(align))}")
        value = f"{new}.value"
        if field == "ptr":
            value = f"{new}.pointer"
            lines.append(f"{space}{value} = inttoptr i64 {new}.value to ptr")
        into = name if number == len(fields) - 1 else f"{new}.whole"
        lines.append(f"{space}{into} = insertvalue {kind} {whole}, {field} {value}, {number}")
        whole, at = into, at + size
    return "\n".join(lines)


def narrow_instruction(line, names):
    """An instruction, or the few that do the same."""
    found = STORE.match(line)
    if found:
        space, value, place, align = found.groups()
        new = next(names)
        return f"{space}{new} = ptrtoint ptr {value} to i64\n{space}store i64 {new}, ptr {place}, align {align}"
    found = LOAD.match(line)
    if found:
        space, name, place, align = found.groups()
        new = next(names)
        return f"{space}{new} = load i64, ptr {place}, align {align}\n{space}{name} = inttoptr i64 {new} to ptr"
    found = STRUCTURE.match(line)
    if found:
        return narrow_structure(found, names)
    line = line.replace("= alloca ptr,", "= alloca i64,").replace("= ptrtoaddr ptr", "= ptrtoint ptr")
    if UNKNOWN.search(TEXT.sub("", line)):
        raise NoRule(line)
    return line


def narrowed(lines):
    """The lines of a module's text for pointers of 32 bits."""
    names = (f"%narrow.{number}" for number in count())
    for line in lines:
        if "ptr" not in line:
            yield line
        elif line.startswith("@"):
            yield narrow_constant(line)
        elif line.startswith(" "):
            yield narrow_instruction(line, names)
        elif line.startswith("define") and re.search(r"\b(byval|sret|inalloca|preallocated)\(", TEXT.sub("", line)):
            raise NoRule(line)
        else:
            yield line

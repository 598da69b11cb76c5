"""web/cpx.mjs: that it reads files and standard input, and says in a sentence, with a status, why there is no answer: a module that is not there, or broken, or can't run here,
memory that is refused, a stack that is too deep, a stop."""
import base64
import gzip
import os
import re
import signal

from script_checks import DEADLOCK, DISPLAYS, FAULTS, ROOT, AtTerminal, run

CPX = ROOT / "web/cpx.mjs"
tried = 0


def want(what, found, wanted):
    global tried
    tried += 1
    if found != wanted:
        FAULTS.append(f"cpx.mjs, {what}: {found!r}, wanted {wanted!r}")


def number(data, at):
    """A number in a module's bytes (LEB128), and where it ends."""
    value = shift = 0
    while True:
        byte = data[at]
        value, shift, at = value | (byte & 127) << shift, shift + 7, at + 1
        if byte < 128:
            return value, at


def spelled(value):
    """A number as five bytes."""
    return bytes([value >> 7 * it & 127 | 128 for it in range(4)] + [value >> 28 & 127])


def with_section(program, wanted, change):
    """A module with one of its sections changed."""
    made, at = bytearray(program[:8]), 8
    while at < len(program):
        size, begin = number(program, at + 1)
        body = program[begin:begin + size]
        if program[at] == wanted:
            body = change(body)
        made += program[at:at + 1] + spelled(len(body)) + body
        at = begin + size
    return bytes(made)


def with_less_memory(program):
    """A module whose memory never grows. The section has one memory: that it has a limit, its pages, and the limit."""
    def change(body):
        pages, _ = number(body, 2)
        return body[:2] + spelled(pages) + spelled(pages)
    return with_section(program, 5, change)


def with_less_stack(program):
    """A module whose stack has two kilobytes. The first of its variables is where the stack begins: a kind, that it changes, and a constant."""
    def change(body):
        many, at = number(body, 0)
        _, end = number(body, at + 3)
        return body[:at + 3] + spelled(2048) + body[end:]
    return with_section(program, 6, change)


def check_sources(words):
    """Where the source comes from."""
    cpx = lambda *more, **how: run("node", CPX, *words, *more, **how)
    told = (0, "45 schedules, 2 outcomes")
    begin = lambda ran: (ran[0], ran[1][:24])
    source = DISPLAYS.read_bytes()
    want("a file", begin(cpx("outcomes", "--choices", "5", DISPLAYS)), told)
    want("standard input", begin(cpx("outcomes", "--choices=5", source=source)), told)
    want("standard input by name", begin(cpx("outcomes", "-", "--choices=5", source=source)), told)
    want("from another folder", begin(cpx("outcomes", "--choices=5", DISPLAYS.name, folder=DISPLAYS.parent)), told)
    want("a mark", cpx("mark", "never", "all-waiting", DEADLOCK)[0], 6)
    want("a refused source", cpx("outcomes", source=b"begin x end."), (1, "line 1 check C1\n", "./show refusal says why\n"))
    want("no file", cpx("outcomes", "none.cp"), (2, "", "cpx.mjs: there is no file none.cp\n"))
    want("a folder", cpx("outcomes", "examples"), (2, "", "cpx.mjs: examples is a folder\n"))
    want("two files", cpx("outcomes", "a.cp", "b.cp"), (2, "", "cpx.mjs: one program at a time: a.cp, and b.cp\n"))
    want("no part", cpx("outcome")[2].partition(";")[0], "cpx.mjs: there is no part outcome: outcomes is meant")
    full = run("sh", "-c", f"node {CPX} {' '.join(map(str, words))} outcomes {DISPLAYS} > /dev/full")
    want("a full disk", full, (4, "", "cpx_show: reading the program or writing the answer failed\n"))


def check_ends(file, program, room):
    """Why there is no answer. program: the module's bytes."""
    cpx = lambda name, text, **how: run("node", CPX, "--module", put(room / name, text), "outcomes", DISPLAYS, **how)
    want("no module", run("node", CPX, "--module", room / "none.html", "outcomes")[0], 127)
    want("a page without one", cpx("plain.html", b"<html></html>"), (127, "", f"cpx.mjs: there is no module to run in {room}/plain.html: it holds no module\n"))
    broken = b'<script type="text/plain" id="program">AAAA</script>'
    want("a broken module", cpx("broken.html", broken), (127, "", f"cpx.mjs: there is no module to run in {room}/broken.html: The module of the explorer is broken, or is not the one that belongs to this file.\n"))
    other = b"\0asm\1\0\0\0"
    want("another module", cpx("other.wasm", other)[0], 127)
    want("too little memory", cpx("little.wasm", with_less_memory(program))[::2], (3, "cpx_show: no memory\n"))
    want("too deep", cpx("deep.wasm", with_less_stack(program)), (134, "", "cpx.mjs: The program is nested too deep: the stack of this browser or this node does not hold it.\n"))
    put(room / "old.cjs", b"delete globalThis.DecompressionStream;")
    old = run("env", f"NODE_OPTIONS=--require={room}/old.cjs", "node", CPX, "--module", file, "outcomes", DISPLAYS)
    want("an old node", (old[0], old[1], old[2].endswith("lacks DecompressionStream: node 18 or a later one has it\n")), (127, "", True))


def put(file, data):
    file.write_bytes(data)
    return file


def check_stop(words):
    """Control-C."""
    at_work = AtTerminal(["node", CPX, *words, "outcomes", "--states", "10000000", "-"], MANY_STATES)
    at_work.wait_for(b"states")
    at_work.interrupt()
    status, out, said = at_work.end()
    want("stopped", (status, out, said[-22:]), (-signal.SIGINT, "", "\r\x1b[Kcpx.mjs: stopped\r\n"))


# Six processes that go on and on.
MANY_STATES = b"""type cell = monitor; var n: integer; procedure entry turn; begin n := (n + 1) mod 90 end; begin n := 0 end;
p = process(c: cell); begin cycle c.turn end end; var a, b, c, d, e: cell; v, w, x, y, z: p;
begin init a, b, c, d, e, v(a), w(b), x(c), y(d), z(e) end.
"""


def program_of(file):
    """The bytes of the module of a page, or of a file that holds it alone."""
    data = file.read_bytes()
    return data if file.suffix == ".wasm" else gzip.decompress(base64.b64decode(re.search(rb'<script[^>]* id="program"[^>]*>([^<]*)<', data)[1]))


def check_node(file, room):
    """All of it, with the module of a page or of a file of its own. Returns how much was tried."""
    os.environ.pop("CPX_COMMAND", None)
    words = ["--module", file]
    check_sources(words)
    check_ends(file, program_of(file), room)
    check_stop(words)
    return tried

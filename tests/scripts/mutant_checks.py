"""Checks of ./class --mutants: which mistakes are made in a model, and which of them are told."""
import csv
import io

from script_checks import DEADLOCK, ORDERED, ROOT, AtTerminal, run, want, want_in

# A model in which there is something for each mistake; what stands in comments and between quotes is none.
MODEL = """const size = 1;
type
"delay(full); continue(full); if count = 0 then delay(full)"
buffer = monitor;
  var place: char; count: integer; full, none: queue;
  procedure entry put(c: char);
  begin
    if count >= size then delay(full);
    place := c; count := count + 1; "continue(full)"
    continue(none)
  end;
  function entry get: char;
  begin
    if (count = 0) and not (place = ';') then delay(none);
    get := place; count := count - 1
  end;
  procedure entry turn; begin if not empty(full) then continue(full) end;
begin place := ';'; count := 0 end;
user = process(a, b: buffer); var c: char;
begin a.put('('); b.put('"'); c := a.get; a.turn end;
var a, b: buffer; u: user;
begin init a, b, u(a, b) end.
"""
# The line, the mistake, what is there, and what stands in its place.
MISTAKES = [
    (6, "the word entry is left out", "procedure entry put", "procedure put"),
    (8, "the if around a delay is left out", "if count >= size then delay(full)", "delay(full)"),
    (8, "the test is turned", "count >= size", "count < size"),
    (8, "the test is by one", "count >= size", "count > size"),
    (8, "a delay is left out", "delay(full)", ""),
    (8, "two queues are exchanged", "delay(full)", "delay(none)"),
    (8, "two queues are exchanged", "delay(full) .. continue(none)", "delay(none) .. continue(full)"),
    (9, "continue before the change", "place := c; count := count + 1; continue(none)", "continue(none); place := c; count := count + 1"),
    (9, "continue before the change", "count := count + 1; continue(none)", "continue(none); count := count + 1"),
    (10, "a continue is left out", "continue(none)", ""),
    (10, "two queues are exchanged", "continue(none)", "continue(full)"),
    (12, "the word entry is left out", "function entry get", "function get"),
    (14, "the if around a delay is left out", "if (count = 0) and not (place = ';') then delay(none)", "delay(none)"),
    (14, "the test is turned", "count = 0", "count <> 0"),
    (14, "the test is by one", "count = 0", "count = 1"),
    (14, "the test is by one", "count = 0", "count = -1"),
    (14, "the test is turned", "not (place = ';')", "(place = ';')"),
    (14, "the test is turned", "place = ';'", "place <> ';'"),
    (14, "the test is by one", "place = ';'", "place = ';' + 1"),
    (14, "the test is by one", "place = ';'", "place = ';' - 1"),
    (14, "a delay is left out", "delay(none)", ""),
    (14, "two queues are exchanged", "delay(none)", "delay(full)"),
    (17, "the word entry is left out", "procedure entry turn", "procedure turn"),
    (17, "the test is turned", "not empty(full)", "empty(full)"),
    (17, "a continue is left out", "continue(full)", ""),
    (17, "two queues are exchanged", "empty(full)", "empty(none)"),
    (17, "two queues are exchanged", "continue(full)", "continue(none)"),
    (18, "an initial value is left out", "place := ';'", ""),
    (18, "an initial value is left out", "count := 0", ""),
    (20, "a fork order is turned", "a.put('('); b.put('\"')", "b.put('\"'); a.put('(')"),
    (22, "an init order is turned", "a, b", "b, a"),
    (22, "an init order is turned", "b, u(a, b)", "u(a, b), b"),
    (22, "a fork order is turned", "a, b", "b, a"),
]


def check_mistakes(room):
    """Each usual mistake is made once, at each place where it can be made, and nowhere in comments or between quotes."""
    model = room / "every-mistake.cp"
    model.write_text(MODEL)
    status, text, said = run("./class", "--mutants", model, "--csv", "-e", "never run-error overflow")
    want("mistakes as a table", (said, text.splitlines()[0]), ("", "line,mistake,is,becomes,never run-error overflow,outcomes and who waits,why"))
    rows = list(csv.reader(io.StringIO(text)))[1:]
    found = [(int(it[0]), *it[1:4]) for it in rows]
    want("mistakes that are not made", [it for it in MISTAKES if it not in found], [])
    want("what is no mistake", [it for it in found if it not in MISTAKES], [])
    want("how often each is made", len(found), len(MISTAKES))
    refused = {(it[0], it[1]) for it in rows if it[4] == "refused"}
    entry = "the word entry is left out"
    want("what the checker refuses", refused, {("6", entry), ("12", entry), ("17", entry), ("14", "the test is by one")})


def check_unnoticed(room):
    """Listed is what no expectation notices, with what tells it from the model: other outcomes, or the same ones."""
    buffer = ROOT / "examples/bounded-buffer.cp"
    status, text, said = run("./class", "--mutants", buffer, "-e", "never all-waiting")
    want("a question is missing", (status, said), (6, ""))
    other, same = text.split("\nnot noticed, and other outcomes and who waits:\n")[1].split("\nnot noticed, and the same outcomes and who waits:\n")
    want_in("other outcomes", other, "  line 18  a delay is left out: delay(sender)\n           not of the model: 1.1.1.1.1.0.0.0.0.0.0.0.0 finished output 323\n")
    want_in("other outcomes by a wrong init", other, "  line 39  an init order is turned: b, p(b)  ->  p(b), b\n           not of the model: 1 run-error not-init output -\n")
    want_in("the same outcomes", same, "  line 31  an initial value is left out: count := 0\n")
    status, text, _ = run("./class", "--mutants", buffer, "-e", "never all-waiting", "-e", "only finished output 123")
    want("no question is missing", (status, "other outcomes" in text), (0, False))
    want_in("the same is told", text, "\nnot noticed, and the same outcomes and who waits:\n  line 18  the test is by one: count = size  ->  count = size - 1\n")
    want_in("what each notices", text, "\n2  only finished output 123: notices ")
    text = run("./class", "--mutants", buffer, "--states", "20", "-e", "only finished output 123")[1]
    want_in("what takes too much", text, "\nnot settled whether noticed:\n  line ")
    fair = ROOT / "examples/bounded-buffer-endless.cp"
    want_in("by ends", run("./class", "--mutants", fair, "--ends", "-e", "never all-waiting")[1], "\nnot noticed, and the same ends, who waits there, values and who may wait for ever:\n")


def check_frame_of_model(room):
    """Mistakes are made in the model alone, and not in what stands around it; lines are those of the model."""
    top, bottom = room / "cell-top", room / "cell-bottom"
    top.write_text("const first = 1; type\n")
    bottom.write_text("var c, d: cell; begin init c, d; c.put(2); d.put(3); display(c.get) end.\n")
    model = b"cell = monitor; var n: integer;\nprocedure entry put(x: integer); begin n := x end;\nfunction entry get: integer; begin get := n end;\nbegin n := first end;\n"
    around = ["./class", "--top", top, "--bottom", bottom, "--mutants", "-", "--csv", "-e", "only finished output 2"]
    text = run(*around, source=model)[1]
    wanted = ["2,the word entry is left out", "3,the word entry is left out", "4,an initial value is left out"]
    want("mistakes in a frame", [",".join(it.split(",")[:2]) for it in text.splitlines()[1:]], wanted)


def check_model(room):
    """A model that is refused, or of which not all holds, is told so, and no mistakes are made in it."""
    refused = room / "no-model.cp"
    refused.write_text("begin y := 1 end.")
    told = f"{refused} is refused: line 1: y is not declared here (rule C1)\n"
    want("a model that is refused", run("./class", "--mutants", refused, "-e", "never all-waiting"), (1, told, ""))
    status, text, said = run("./class", "--mutants", DEADLOCK, "-e", "never run-error", "-e", "never all-waiting")
    lines = text.splitlines()
    want("a model that is wrong", (status, said, lines[0]), (6, "", f"not all that is expected holds of {DEADLOCK}, so no mistakes are made in it"))
    want("what is wrong with it", lines[1:3], ["  fails: never all-waiting", "    first against it: 0.0.1.0.0 all-waiting output -"])
    want("a model that is not settled", run("./class", "--mutants", ORDERED, "--choices", "2", "-e", "never all-waiting")[0], 7)


def check_interrupt_of_mistakes(room):
    """Control-C lists what is marked so far."""
    model = room / "long-model.cp"
    text = (ROOT / "examples/readers-writers-four.cp").read_text()
    for call in ("a.start_read(me); a.end_read", "a.start_write(me); a.end_write"):
        text = text.replace(call, "; ".join([call] * 2))
    model.write_text(text)
    at_work = AtTerminal(["./class", "--mutants", model, "-e", "never run-error"])
    at_work.wait_for(b"mistakes marked")
    at_work.interrupt()
    status, text, said = at_work.end()
    want_in("mistakes interrupted", said, "mistakes are marked\r\n")
    want("its status", (status, text.split(":")[0].split(" ")[1].rstrip("s")), (130, "mistake"))


def check_mutants(room):
    """All checks of mistakes."""
    check_mistakes(room)
    check_unnoticed(room)
    check_frame_of_model(room)
    check_model(room)
    check_interrupt_of_mistakes(room)

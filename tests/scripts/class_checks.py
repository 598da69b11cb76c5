"""Checks of ./class: what is asked, how solutions are marked, and what is written."""
import csv
import io
import os
import re
import subprocess
import time

from marking.solution import bytes_of
from marking.tables import together
from marking.words import ALONE, FLAGS, FORMS, OWN, VALUED, Asked, Refused
from script_checks import DEADLOCK, DISPLAYS, ORDERED, ROOT, FAULTS, AtTerminal, run, want, want_in

RUNNERS = ROOT / "examples/readers-first-endless.cp"
IF_OR_WHILE = ROOT / "examples/if-or-while.cp"
FAIR = ROOT / "examples/readers-writers-turns-endless.cp"
SECOND = ROOT / "examples/second-waiter.cp"
FIVE = ROOT / "examples/philosophers-five.cp"
FIVE_ORDERED = ROOT / "examples/philosophers-five-ordered.cp"
# Whoever comes first waits for ever; and the same outcomes where it is always the same one.
WHO = ROOT / "tests/show/mark-who.cp"
STAYS = b"procedure entry stay; begin delay(inside) end;\nbegin came := true end;\nloner = process(d: door); begin d.stay end;"
LONER = WHO.read_bytes().replace(b"begin came := false end;", STAYS).replace(b"x: guest", b"x: loner")
HELP = " (./class --help says more)\n"
# It takes longer than any check waits.
SLOW = "type p = process; begin cycle display(1); display(2) end end;\nvar a, b, c, d, e: p;\nbegin init a, b, c, d, e end.\n"
SLOWLY = ("--csv", "--states", "10000000", "-e", "never all-waiting")


def reason(*words):
    """Returns why words are refused that ask for nothing that could be done, without running anything; none where they are not."""
    try:
        Asked([str(it) for it in words])
    except Refused as why:
        return str(why)
    return None


def check_words_of_class(room):
    """Options and expectations are read before the first solution, and refused with the reason."""
    for words, why in (
        (["-e", "never all-waiting", "-e", "never shown 1,", DEADLOCK], "-e 'never shown 1,': expected a value, found \"1,\""),
        (["-e", "never waiting", "--ends", "--at-once", RUNNERS], "-e 'never waiting': waiting can't be asked with --at-once"),
        (["-e", "never all-waiting", "--choices", "130", DEADLOCK], "--choices 130: at most 100"),
        (["--like", ORDERED, "--gates", "all", DEADLOCK], "--gates all: `first` or `any`"),
        (["-e", "never all-waiting", "--choice", "5", DEADLOCK], "--choice is no option: did you mean --choices"),
        (["-e", "never all-waiting", "--top", "none", DEADLOCK], "none can't be read: No such file or directory"),
    ):
        want(f"class {words[0]} {words[1:-1]}", run("./class", *words), (2, "", f"./class: {why}{HELP}"))
    for words, why in (
        (["--seconds", "no", DEADLOCK], "--seconds no: a number is wanted, as 10 or 0.5"),
        (["--minutes", "0", DEADLOCK], "--minutes 0: a number is wanted, as 10 or 0.5"),
        (["--csv", "--html", DEADLOCK], "--html: not beside --csv"),
        (["--top"], "--top wants a value"),
        (["-", "-"], "standard input is one file: - stands once"),
        ([], "there is no solution to mark"),
        (["--mutants", ORDERED, DEADLOCK], f"{DEADLOCK}: beside --mutants there is no solution to mark"),
    ):
        want(f"class {words}", reason("-e", "never all-waiting", *words), why)
    want("nothing expected", reason(DEADLOCK), "nothing is expected: -e EXPECTATION, or --like MODEL.cp")
    want("nothing expected of a model", reason("--mutants", ORDERED), "nothing is expected: -e EXPECTATION")
    help_text = run("./class", "--help")[1]
    want("options without a line of help", [it for it in (*VALUED, *FLAGS, *FORMS, *OWN, *ALONE) if it != "--merge" and it not in help_text], [])
    named = ["--csv", "--ends", "-e", "some waiting w1 and never alone", "-e", "some waiting p[3]", RUNNERS]
    want("names of the solutions", [it.split(",")[1:3] for it in run("./class", *named)[1].splitlines()[1:]], [["holds", "no expectation"]])
    odd = room / "--csv"
    odd.write_bytes(DISPLAYS.read_bytes())
    marked = [ROOT / "class", "--csv", "--choices", "5", "-e", "never all-waiting"]
    want("a file behind --", run(*marked, "--", "--csv", folder=room)[1].splitlines()[1:], ["--csv,holds,1,"])
    want("standard input", run(*marked, "-", source=DISPLAYS.read_bytes())[1].splitlines()[1:], ["-,holds,1,"])


def check_time(room):
    """What is too slow reads so, in each column; --minutes bounds all, and what it cuts off is not marked."""
    slow = room / "slow.cp"
    slow.write_text(SLOW)
    like = [*SLOWLY, "--choices", "40", "--like", DISPLAYS]
    text = run("./class", *like, "--seconds", "1.5", slow, DISPLAYS)[1]
    want("a limit of time", [it.split(",")[1:4] for it in text.splitlines()[1:]], [["too slow", "too slow", "0"], ["holds", "holds", "2"]])
    began = time.monotonic()
    status, text, said = run("./class", *like, "--minutes", "0.03", "--seconds", "30", DISPLAYS, slow)
    want("as much time as all may take", time.monotonic() - began < 25, True)
    rows = [it.split(",")[1:4] for it in text.splitlines()[1:]]
    want("a limit of time for all", (status, said, rows), (5, "", [["holds", "holds", "2"], ["not marked", "not marked", "0"]]))


def check_interrupt_of_class(room):
    """A terminal shows how many are marked; Control-C writes these, and takes the line away."""
    slow = room / "slow.cp"
    slow.write_text(SLOW)
    at_work = AtTerminal(["./class", *SLOWLY, DISPLAYS, slow, slow, slow])
    at_work.wait_for(b"1 of 4 solutions marked")
    at_work.interrupt()
    status, text, said = at_work.end()
    want("a class interrupted", (status, text.splitlines()[1:]), (130, [f"{DISPLAYS},holds,1,"]))
    want_in("what is said of it", said, "\r1 of 4 solutions marked\r\x1b[K./class: interrupted: 1 of 4 solutions are marked\r\n")


def check_quiet(room):
    """A pipe that is closed ends it quietly; nothing that can't be read or written has it stop with a traceback."""
    for form in (["--csv"], ["--html", "--pages", str(room / "pages")]):
        marked = ["./class", *form, "-e", "never all-waiting", str(DEADLOCK)]
        read, write = os.pipe()
        os.close(read)
        done = subprocess.run(marked, stdout=write, stderr=subprocess.PIPE, cwd=ROOT, timeout=120, check=False)
        os.close(write)
        want("a closed pipe", (done.returncode, done.stderr), (4, b""))
        with open("/dev/full", "wb") as full:
            done = subprocess.run(marked, stdout=full, stderr=subprocess.PIPE, cwd=ROOT, timeout=120, check=False)
        want("a full disk", (done.returncode, done.stderr), (4, b"./class: writing the answer failed: No space left on device\n"))
    closed = run("bash", "-c", "./class --csv -e 'never all-waiting' examples/two-displays.cp >&-")
    want("no standard output", closed, (4, "", "./class: writing the answer failed: it is closed\n"))
    odd = os.fsencode(room) + b"/\xff.cp"
    with open(odd, "wb") as file:
        file.write(b"\x00\xff'")
    done = subprocess.run(["./class", "--csv", "-e", "never all-waiting", odd], capture_output=True, cwd=ROOT, timeout=120, check=False)
    want("a file's odd name", (done.returncode, done.stderr, done.stdout.splitlines()[1].split(b",")[:2]), (0, b"", [odd, b"refused"]))


def check_what_is_no_file(room):
    """A folder, and a pattern that no name fits, are refused before anything is marked."""
    asked = ["./class", "-e", "never all-waiting", DISPLAYS]
    want("a folder", run(*asked, room), (2, "", f"./class: {room} is a folder: name the files in it{HELP}"))
    want("a pattern that fits nothing", run(*asked, room / "none/*.cp"), (2, "", f"./class: there is no file {room}/none/*.cp{HELP}"))


def check_broken_frame(room):
    """What stands around the solutions and is refused is said once; a mistake of a solution is not taken for one of what stands around it."""
    good, worse, top, bottom = (room / it for it in ("good.cp", "worse.cp", "frame-top", "frame-bottom"))
    good.write_text("m = monitor; procedure entry e; begin end; begin end;\n")
    worse.write_text("m = monitor; begin end;\n")
    asked = ["./class", "--csv", "--top", top, "--bottom", bottom, "-e", "never all-waiting"]
    fits = ("type\n", "var a: m;\nbegin init a; a.e end.\n")
    for what, texts, files, wanted in (
        ("nothing", fits, [good], (0, [["holds"]], "")),
        ("the top", ("type type\n", fits[1]), [good], (2, [], f"./class: each solution is refused for what stands around it: line 1 of {top}: ")),
        ("the bottom", (fits[0], "var a: m;\nbegin init a; b.e end.\n"), [good, worse], (2, [], f"./class: each solution is refused for what stands around it: line 2 of {bottom}: ")),
        ("a solution", fits, [good, worse], (0, [["holds"], ["refused"]], "")),
        ("a solution alone", fits, [worse], (0, [["refused"]], "")),
    ):
        top.write_text(texts[0])
        bottom.write_text(texts[1])
        status, text, said = run(*asked, *files)
        want(f"what is broken: {what}", (status, [it[1:2] for it in csv.reader(io.StringIO(text))][1:], said[: len(wanted[2]) or None]), wanted)


def check_model_of_expectations():
    """An expectation that the model itself fails is said, and all is marked."""
    asked = ["./class", "--csv", "--like", ORDERED, "-e", "never finished", "-e", "never all-waiting", ORDERED]
    status, text, said = run(*asked)
    want("marks beside a model that fails", (status, text.splitlines()[1].split(",")[1:5]), (6, ["fails", "holds", "holds", "2"]))
    want("what is said of the model", (said.count("\n"), said.startswith(f"./class: {ORDERED} itself does not have what is expected: never finished: fails: ")), (1, True))


def check_refusal(room):
    """Why a solution is refused is told once, however many expectations there are."""
    refused = room / "wrong.cp"
    refused.write_text("begin\n  y := 1\nend.\n")
    asked = ["-e", "never all-waiting", "-e", "never run-error", "--like", DISPLAYS, refused]
    for form in ([], ["--csv"], ["--html", "--pages", room / "pages"]):
        text = run("./class", *form, *asked)[1]
        want(f"a refusal told once {form}", (text.count("y is not declared here"), text.count("refused<" if "--html" in form else "refused")), (1, 3))


def check_like_ends():
    """With --ends what is compared is ends, who waits there, values and who may wait for ever; the column says so."""
    text = run("./class", "--csv", "--ends", "--like", FAIR, FAIR, RUNNERS)[1]
    rows = list(csv.reader(io.StringIO(text)))
    want("its head", rows[0][1], f"like {FAIR}: ends, who waits there, values and who may wait for ever")
    want("like with --ends", [it[1] for it in rows[1:]], ["holds", "fails"])
    want_in("what is not of the model", rows[2][3], ": w1 waits for ever")
    head = run("./class", "--csv", "--ends", "--at-once", "--like", FAIR, FAIR)[1].splitlines()[0]
    want_in("where nobody asks who waits", head, f"like {FAIR}: ends and values,")
    text = run("./class", "--csv", "--states", "8", "--like", ORDERED, DEADLOCK)[1]
    want_in("with too many states", text, f"{DEADLOCK},too many,0,")
    text = run("./class", "--csv", "--ends", "--like", ORDERED, DEADLOCK)[1]
    want_in("an end that is not of the model", text, "not of the model: 0.0.1.0.0 all-waiting")


def check_like_who_waits():
    """Outcomes can be the same and others wait: each who waits at an end is compared, where all of them are known."""
    for form in ([], ["--ends"], ["--ends", "--gates", "any"]):
        rows = list(csv.reader(io.StringIO(run("./class", "--csv", *form, "--like", WHO, WHO, "-", source=LONER)[1])))
        want(f"like by who waits {form}", [it[1] for it in rows[1:]], ["holds", "fails"])
        want_in(f"who waits in the model alone {form}", rows[2][3], "only of the model: all-waiting: others[1]")
        text = run("./class", "--csv", *form, "--like", "-", WHO, source=LONER)[1]
        want_in(f"who waits in the solution alone {form}", text, f"{WHO},fails,0,not of the model: 0.0.2.1 all-waiting: others[1]")
    text = run("./class", "--csv", "--ends", "--at-once", "--like", WHO, "-", source=LONER)[1]
    want("who waits where calls are made at once", text.splitlines()[1], "-,holds,1,")
    rows = list(csv.reader(io.StringIO(run("./class", "--csv", "--ends", "--states", "5000", "--like", FIVE, FIVE, FIVE_ORDERED)[1])))
    want_in("who waits where calls had to be made at once", rows[1][1:4], "who waits at an end was not looked at: there are too many states")
    want("the verdicts", [it[1] for it in rows[1:]], ["not settled", "fails"])


def check_what_class_tells():
    """What is told of an expectation that fails is who waits where, the line of an error, or the round; so also of schedules of any length."""
    waits = "all-waiting; 0 program waits in forks[1].hungry; 1 p waits in forks[2].hungry"
    error = "run-error queue-in-use process 2 line 14; 2 b at line 14: begin if not happened then delay(place) end;"
    for asked, source, told in (
        (["-e", "never all-waiting"], DEADLOCK, waits.replace(";", " output -;", 1)),
        (["--ends", "-e", "never all-waiting"], DEADLOCK, waits),
        (["--ends", "--at-once", "-e", "never all-waiting"], DEADLOCK, waits),
        (["-e", "never run-error"], SECOND, error.replace(";", " output -;", 1)),
        (["--ends", "-e", "never run-error"], SECOND, error),
        (["--ends", "-e", "never waiting"], RUNNERS, "against it: 0.0.0.1.1.3.3 again 2.1.1.1.2.2: 3 w1 waits for ever"),
    ):
        want_in(f"what is told of {asked}", run("./class", "--csv", *asked, source)[1].splitlines()[1], told)


def check_signals_of_class(room):
    """All is marked under one rule of signals, and each column says under which, where it is not that of the book."""
    asked = ["-e", "never shown 0", "--like", IF_OR_WHILE]
    twice = room / "while.cp"
    twice.write_text(IF_OR_WHILE.read_text().replace("if full then", "while full do").replace("if not full then", "while not full do"))
    for rule, under, verdicts in (
        ("return", "", [["holds", "holds"], ["holds", "holds"]]),
        ("continue", ", under --signals continue", [["fails", "holds"], ["holds", "fails"]]),
        ("wait", ", under --signals wait", [["holds", "holds"], ["holds", "holds"]]),
    ):
        rows = list(csv.reader(io.StringIO(run("./class", "--csv", "--signals", rule, *asked, IF_OR_WHILE, twice)[1])))
        want(f"heads under {rule}", rows[0][1:3], [f"never shown 0{under}", f"like {IF_OR_WHILE}: outcomes and who waits{under}"])
        want(f"marks under {rule}", [it[1:3] for it in rows[1:]], verdicts)
    text = run("./class", "--signals", "continue", "--mutants", twice, "-e", "never shown 0")[1]
    want_in("the head of an expectation that notices mistakes", text, "\n1  never shown 0, under --signals continue: notices ")


def check_no_display(room):
    """A solution that displays anything is told so and gets no points; what stands around it may display."""
    top, bottom = room / "shows-top", room / "shows-bottom"
    top.write_text("const ten = 10; type\n")
    bottom.write_text('p = process(m: m); begin display(m.value) end;\nvar b: m; a: p;\nbegin init b, a(b) end. "the end"\n')
    own = 'm = monitor; function entry value: integer; begin value := ten end; begin {} end;\n'
    inner = [("", "holds"), ('"display(1)"', "holds"), ("display(1)", "displays"), ("DISPLAY(1)", "displays")]
    files = []
    for number, (words, _) in enumerate(inner):
        files.append(room / f"shows-{number}.cp")
        files[-1].write_text(own.format(words))
    files.append(room / "shows-open.cp")
    files[-1].write_text(own.format("") + '"')
    asked = ["--csv", "--top", top, "--bottom", bottom, "-e", "never all-waiting"]
    rows = list(csv.reader(io.StringIO(run("./class", *asked, "--no-display", *files)[1])))[1:]
    want("who displays", [it[1] for it in rows], [*(it for _, it in inner), "displays"])
    want("what is told", [rows[2][3], rows[4][3]], ["line 1 displays, which is not left to the solution", "line 2: a comment goes on behind the solution"])
    want("without the option", run("./class", *asked, files[2])[1].splitlines()[1].split(",")[1], "holds")


def check_parts_of_class(room):
    """Tables of parts are taken together: what each solution gave by itself, as on several machines."""
    asked = ["./class", "--csv", "--choices", "19", "-e", "never all-waiting", "-e", "some finished"]
    parts = [run(*asked, it)[1] for it in (DEADLOCK, ORDERED, DISPLAYS)]
    whole = run(*asked, DEADLOCK, ORDERED, DISPLAYS)
    one, other, head = room / "one.csv", room / "other.csv", parts[0].splitlines()[0]
    one.write_text(parts[0] + parts[1])
    other.write_text(parts[2])
    want("parts together", run("./class", "--csv", one, other), whole)
    want("parts on standard input", run("./class", "--csv", "-", source="".join(parts).encode()), whole)
    other.write_text(f"{head}\n{DEADLOCK},too slow,too slow,0,,\n")
    want("a file once more", run("./class", "--csv", other, one)[1], "".join([parts[0], parts[1].splitlines()[1], "\n"]))
    other.write_text("file,never run-error,points,why: never run-error\n")
    want("other columns", run("./class", "--csv", one, other), (2, "", f"./class: {other}, line 1: other columns than in {one}{HELP}"))
    for text, parts, why in (
        (f"{head}\n{DEADLOCK},holds\n", [one, other], f"{other}, line 2: 2 columns, wanted 6"),
        ("a,b\n", [other], f"{other} is no table that --csv has written"),
    ):
        other.write_text(text)
        try:
            found = together(Asked(["--csv", *map(str, parts)]), bytes_of)
        except Refused as fault:
            found = str(fault)
        want("a broken part", found, why)


def check_html(room):
    """A cell leads to its picture, and for a failure to a page to play, laid out at the schedule against it; names are short."""
    folder, marks = room / "of-html/solutions", room / "of-html/marks.html"
    folder.mkdir(parents=True)
    for name, source in (("anna", DEADLOCK), ("ben", ORDERED)):
        (folder / f"{name}.cp").write_bytes(source.read_bytes())
    with open(marks, "wb") as out:
        subprocess.run([ROOT / "class", "--html", "--pages", folder / "play", "-e", "never all-waiting", "-e", "only finished output 0 1",
                        folder / "anna.cp", folder / "ben.cp"], stdout=out, cwd=ROOT, timeout=120, check=True)
    text = marks.read_text()
    want_in("a head that stays", text, "th{position:sticky;top:0;")
    want_in("a viewport", text, '<meta name="viewport" content="width=device-width, initial-scale=1">')
    names = re.findall(r'<tr><td title="(.*?)">(.*?)</td>', text)
    want("names", names, [(str(folder / "anna.cp"), "anna"), (str(folder / "ben.cp"), "ben")])
    cells = re.findall(r'<td class="fails"><a href="#(.*?)">fails</a> <a href="(.*?)">play</a></td>', text)
    want("cells of failures", len(cells), 3)
    for anchor, link in cells:
        below = text[text.index(f'<div id="{anchor}">') :]
        word = re.search(r"against it: (\S+)", below)[1]
        name = link.rsplit("/", 1)[1].split("-")[0]
        want(f"the page of {anchor}", (marks.parent / link).read_text(), run("./show", "page", "--schedule", word, folder / f"{name}.cp")[1])
        want_in(f"the picture of {anchor}", below.split("</section>")[0], "<figure><svg")
    ids, used = re.findall(r'\bid="(.*?)"', text), re.findall(r"url\(#(.*?)\)", text)
    want("names of parts", (len(set(ids)), [it for it in used if it not in ids]), (len(ids), []))
    drawn = run("./class", "--html", "--pages", folder / "play", "--like", folder / "ben.cp", "-e", "never all-waiting", folder / "anna.cp")[1]
    want_in("a model's short name", drawn, "<th>like ben: outcomes and who waits</th>")
    want("names of one", re.findall(r'<tr><td title=".*?">(.*?)</td>', drawn), ["anna"])
    want("no folder", run("./class", "--html", "--pages", marks, "-e", "never all-waiting", DEADLOCK), (4, "", f"./class: {marks}: File exists\n"))


def check_class(room):
    """All checks of ./class."""
    check_words_of_class(room)
    check_time(room)
    check_interrupt_of_class(room)
    check_quiet(room)
    check_what_is_no_file(room)
    check_broken_frame(room)
    check_model_of_expectations()
    check_refusal(room)
    check_like_ends()
    check_like_who_waits()
    check_what_class_tells()
    check_signals_of_class(room)
    check_no_display(room)
    check_parts_of_class(room)
    check_html(room)
    check_marks(room)
    check_class_of_many(room)


def check_marks(room):
    top, bottom = room / "top", room / "bottom"
    top.write_text("type p = process(n: integer);\nbegin display(n) end;\n")
    bottom.write_text("begin init a(1), b(2) end.\n")
    right, unknown, short = room / "right.cp", room / "unknown.cp", room / "short.cp"
    right.write_text("var a, b: p;")
    unknown.write_text("var a, b: p;\n  c: integr;\n")
    short.write_text("var a: p;\n")
    around = ["--top", top, "--bottom", bottom, "--choices", "5", "--csv", "-e", "never all-waiting"]
    status, text, said = run("./class", *around, right, unknown, short)
    lines = text.splitlines()
    want("a class", (status, said), (0, ""))
    want("its columns", lines[0], "file,never all-waiting,points,why: never all-waiting")
    want("a solution that holds", lines[1], f"{right},holds,1,")
    want("the line of the student's file", lines[2], f"{unknown},refused,0,line 2: integr is not declared here: integer may be meant (rule C1)")
    want("the line of what stands below", lines[3], f"{short},refused,0,line 1 of {bottom}: b is not declared here (rule C1)")
    status, text, _ = run("./class", "--csv", "--choices", "19", "-e", "never all-waiting", "--like", ORDERED, DEADLOCK, ORDERED)
    want("a model", [it.split(",")[1:4] for it in text.splitlines()[1:]], [["fails", "fails", "0"], ["holds", "holds", "2"]])
    want_in("the first schedule against it", text, "first against it: 0.0.1.0.0 all-waiting output -")
    page = run("./class", "--html", "--pages", room / "pages", "--choices", "19", "-e", "never all-waiting", DEADLOCK)[1]
    want_in("a page", page, "<figure><svg")
    want_in("who waits where", text, "0 program waits in forks[1].hungry; 1 p waits in forks[2].hungry")
    own = room / "own.cp"
    own.write_text('"(* expect never shown 1 *)"\ntype p = process(n: integer);\nbegin display(n) end;\nvar a, b: p;\nbegin init a(1), b(2) end.\n')
    status, text, _ = run("./class", "--csv", "-e", "some shown 1 and never shown 3", "-e", "only shown 1 and never shown 2", own)
    want("several expectations", text.splitlines()[1].split(",")[1:4], ["holds", "fails", "1"])
    want_in("values by their schedules", text, "first against it: 0.0.1.1 finished output 1 2")


# A bounded buffer, as it is handed in: a monitor alone.
BUFFER = """buffer = monitor;
var place: array [0..1] of integer; head, tail, count: integer; sender, receiver: queue;
procedure entry put(x: integer);
begin
  if count = size then delay(sender);
  place[tail] := x; tail := (tail + 1) mod size; count := count + 1;
  continue(receiver)
end;
procedure entry get(var x: integer);
begin
  if count = 0 then delay(receiver);
  x := place[head]; head := (head + 1) mod size; count := count - 1;
  continue(sender)
end;
begin head := 0; tail := 0; count := 0 end;
"""
BUFFER_TOP = "const size = 2;\ntype\n"
BUFFER_BOTTOM = """
producer = process(b: buffer);
begin b.put(1); b.put(2); b.put(3) end;
consumer = process(b: buffer);
var i, x: integer;
begin for i := 1 to 3 do begin b.get(x); display(x) end end;
var b: buffer; p: producer; c: consumer;
begin init b, p(b), c(b) end.
"""
# What a solution has in place of what, and its marks: whether never all wait, only 1 2 3 is displayed, and there is never a run error.
ONE_QUEUE = [("sender, receiver: queue", "q: queue"), ("(sender)", "(q)"), ("(receiver)", "(q)")]
TURNED = [("x := place[head]; head := (head + 1) mod size;", "tail := (tail + 1) mod size; x := place[tail];")]
SIGNAL_FIRST = [("place[tail] := x;", "continue(receiver); place[tail] := x;"), ("count + 1;\n  continue(receiver)", "count + 1")]
SOLUTIONS = [
    ([], "holds holds holds"),
    (ONE_QUEUE, "holds holds holds"),
    ([("count + 1;\n  continue(receiver)", "count + 1")], "fails fails holds"),
    ([("count - 1;\n  continue(sender)", "count - 1")], "fails fails holds"),
    ([("if count = size then delay(sender);", "")], "holds fails holds"),
    ([("if count = 0 then delay(receiver);", "")], "holds fails holds"),
    ([("count = size", "count = 1")], "holds holds holds"),
    ([("count = size", "count = size + 1")], "holds fails holds"),
    ([("tail := (tail + 1) mod size", "tail := tail + 1")], "holds fails fails"),
    (TURNED, "holds fails holds"),
    (SIGNAL_FIRST, "fails fails holds"),
    ([("head := 0; tail := 0; count := 0", "head := 1; tail := 1; count := 0")], "holds holds holds"),
    ([("tail := 0; count := 0", "tail := 1; count := 0")], "holds fails holds"),
    ([("delay(sender);", "delay(sender)")], "refused refused refused"),
    ([("delay(sender)", "delay(sendr)")], "refused refused refused"),
    ([("if count = size then", "while count = size do"), ("if count = 0 then", "while count = 0 do")], "holds holds holds"),
    ([("if count = 0 then delay(receiver)", "delay(receiver)")], "fails fails holds"),
    ([("place[tail] := x;", "place[tail] := 2 * x;")], "holds fails holds"),
    ([("continue(sender)", "display(99); continue(sender)")], "holds fails holds"),
    ([("if count = 0 then delay(receiver)", "while count = 0 do count := count")], "not-settled not-settled not-settled"),
    ([(BUFFER, "")], "refused refused refused"),
]


def check_class_of_many(room):
    """21 solutions are marked by one command, each cell as it should be; pictures have the lines of the student's file."""
    top, bottom, files = room / "buffer-top", room / "buffer-bottom", []
    top.write_text(BUFFER_TOP)
    bottom.write_text(BUFFER_BOTTOM)
    for number, (edits, _) in enumerate(SOLUTIONS, 1):
        text = BUFFER
        for old, new in edits:
            if old not in text:
                FAULTS.append(f"solution {number}: {old!r} is not in the buffer")
            text = text.replace(old, new)
        files.append(room / f"solution-{number}.cp")
        files[-1].write_text(text)
    asked = ["-e", "never all-waiting", "-e", "only finished output 1 2 3", "-e", "never run-error"]
    around = ["--top", top, "--bottom", bottom]
    status, text, said = run("./class", *around, "--csv", *asked, *files)
    want("a class of many", (status, said), (0, ""))
    rows = list(csv.reader(io.StringIO(text)))[1:]
    want("its rows", len(rows), len(SOLUTIONS))
    for row, file, (_, wanted) in zip(rows, files, SOLUTIONS):
        verdicts = [it.replace("-", " ") for it in wanted.split()]
        want(file.name, row[:5], [str(file), *verdicts, str(verdicts.count("holds"))])
    page = run("./class", *around, "--html", "--pages", room / "pages", "-e", "never run-error", files[8])[1]
    numbers = re.findall(r'font-size="10\.5" fill="#4f5a65" text-anchor="end">(\d*)</text>', page)
    want("lines beside the rows", sorted(set(numbers) - {""}, key=int), ["5", "6", "7", "13"])
    want_in("the line of a row", page, "p, line 7: continues b.receiver")
    want_in("the line of a row below", page, f"p, line 3 of {bottom}: enters b.put(1)")

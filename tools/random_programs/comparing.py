"""Questions to the built programs of which the answer is compared with that of the reference."""
import re
from dataclasses import dataclass

from random_programs import reading
from random_programs.answers import Differs, want_same
from random_programs.causes import cause_of
from random_programs.marks import by_ends, by_rows
from random_programs.reading import LIMITS, report, states

WAITING = re.compile(r"process (\d+) first (\S+) again (\S+)( for good| in its call|)")
LED_TO = re.compile(r"by (\S+) (shows )?(.*)")
MOST_ROWS = 4_000
MOST_VALUES = 1_000


class NotCompared(Exception):
    """Why an answer is not compared."""


@dataclass(frozen=True)
class Question:
    """`kind` is one of KINDS; the words are options, and `expectations` what a mark is asked."""
    kind: str
    words: tuple
    expectations: tuple = ()

    def command(self):
        part = {"mark": ["mark"], "outcomes": ["outcomes"], "refusal": ["refusal", "--json"]}.get(self.kind)
        asked = [" and ".join(it.text for it in self.expectations)] if self.expectations else []
        return (["cpx_show", *part, *self.words, *asked] if part else ["cpx", *self.words])


def compare(question, source, meaning, programs):
    """Raises Differs, NotCompared, or what stops either side."""
    KINDS[question.kind](question, source, meaning, programs)


# -- refusals, and answers that are the same byte for byte

def refusal(question, source, meaning, programs):
    lines, status = programs.lines(["--choices", "0", "--steps", "1"], source)
    want_same("refused", " ".join(lines) if status == 1 else None, meaning.refused)
    told, status = programs.object(["refusal", "--json"], source)
    want_same("accepted", told.get("accepted"), meaning.refused is None)
    want_same("status of a refusal", status, 0 if meaning.refused is None else 1)
    if meaning.refused:
        line, phase, fault = re.fullmatch(r"line (\d+) (\w+):? (.*)", meaning.refused).groups()
        wanted = ("rule", fault) if phase == "check" else ("kind", phase)
        want_same("line and rule", (told.get("line", 0), told.get(wanted[0])), (int(line), wanted[1]))


def same_text(question, source, meaning, programs):
    wanted, wanted_status = meaning.answer(list(question.words))
    told, status = programs.lines(question.words, source)
    want_same("status", status, wanted_status)
    want_same("line", told, wanted)


# -- who may wait for ever: the words are free

def waits(question, source, meaning, programs):
    wanted, wanted_status = meaning.answer(list(question.words))
    told, status = programs.lines(question.words, source)
    if status == 5 and any(line.startswith("waits not settled") for line in told):
        raise NotCompared("not settled")
    want_same("status", status, wanted_status)
    want_same("line but for words", [WAITING.sub(r"process \1\4", line) for line in told], [WAITING.sub(r"process \1\4", line) for line in wanted])
    for line in filter(WAITING.fullmatch, told):
        process, first, again, how = WAITING.fullmatch(line).groups()
        want_same(f"what is wrong with {line!r}", wrong_wait(meaning, question.words, int(process), numbers(first), numbers(again), how), None)


def numbers(word):
    return [] if word == "-" else [int(number) for number in word.split(".")]


def wrong_wait(meaning, words, process, first, again, how):
    """Why the words do not show that the process may wait for ever, or None."""
    followed = meaning.follow(list(words), first + again)
    if followed is None:
        return "they are no schedule"
    start, turn = followed[len(first)], followed[len(first) + 1:]
    if not again:
        holds = start.round is not None and process in start.round.waiting and states.is_fair([start.round])
        return None if holds and how == " for good" else "no stretch that repeats in which it waits"
    if start.node is None or turn[-1].node != start.node:
        return "the round does not lead back"
    moments = [stretched.moments for stretched in turn]
    if not states.is_fair(moments):
        return "somebody is passed over"
    if how == " in its call":
        inside = all(process in one.in_call for one in moments) and any(process in one.once_waiting for one in moments)
        return None if inside else "it comes out of its call, or does not wait"
    return None if all(process in one.waiting for one in moments) else "it does not wait in all of the round"


# -- calls at once: the words and the number of states are free

def at_once(question, source, meaning, programs):
    plain = meaning.found([word for word in question.words if word != "--at-once"])
    told, status = programs.lines(question.words, source)
    if plain.choices is not None:
        raise NotCompared("too many states")
    ends, values = set(plain.ends), {report.value_text(value) for value in plain.values}
    led = [LED_TO.fullmatch(line).groups() for line in told if line.startswith("by ")]
    told_ends, told_values = {what for _, shows, what in led if not shows}, {what for _, shows, what in led if shows}
    # (what is kept is some of the states that --ends alone keeps, so these are not too many either)
    want_same("status", status, 0)
    is_settled = "step-limit" not in told_ends
    want_same("ends that are not possible", sorted(told_ends - ends - {"step-limit"}), [])
    want_same("values that are not possible", sorted(told_values - values), [])
    if is_settled:
        want_same("ends", sorted(told_ends), sorted(ends - {"step-limit"}))
        if len(values) < MOST_VALUES:
            want_same("values", sorted(told_values), sorted(values))
    want_same("not settled", "not settled: step-limit" in told, not is_settled)
    for word, shows, what in led:
        followed = meaning.follow([it for it in question.words if it != "--at-once"], numbers(word))
        led_to = None if followed is None else {report.value_text(it) for one in followed for it in one.shown} if shows else {followed[-1].end}
        if led_to is None or what not in led_to and not (not shows and what.split()[0] in ("alone", "spins") and led_to == {"step-limit"}):
            raise Differs(f"what {word} leads to", what, sorted(map(str, led_to or [])))
    order = [report.end_order((what, word)) for word, shows, what in led if not shows]
    want_same("order of ends", order, sorted(order))


# -- outcomes in JSON, with simplest schedules and causes

def outcomes(question, source, meaning, programs):
    told, status = programs.object(["outcomes", "--json", *question.words], source)
    words, fitting = meaning.fitting(list(question.words))
    rows = meaning.rows(words, MOST_ROWS)
    if rows is None:
        raise NotCompared("too many rows")
    want_same("status", status, 0 if fitting is None else 5)
    if fitting is not None:
        want_same("too many", {member: told.get(member) for member in ("too_many", "choices")}, {"too_many": "states", "choices": fitting})
    compare_outcomes(question, meaning, told if fitting is None else told["known"], rows, words)


def compare_outcomes(question, meaning, told, rows, words):
    wanted = outcomes_of(rows)
    want_same("schedules", told["schedules"], len(rows))
    limits = {kind: sum(row[1] == kind for row in rows) for kind in LIMITS if any(row[1] == kind for row in rows)}
    want_same("limits", {it["kind"]: it["count"] for it in told["limits"]}, limits)
    want_same("complete", told["complete"], not limits)
    processes, monitors = meaning.names()
    want_same("processes", [(it["name"], it["type"]) for it in told["processes"]], processes)
    want_same("monitors", [(it["name"], it["type"]) for it in told["monitors"]], monitors)
    want_same("how many outcomes", len(told["outcomes"]), len(wanted))
    has_simplest = "--states" not in words or all("simplest" in one for one in told["outcomes"])
    for number, (one, (kind, some)) in enumerate(zip(told["outcomes"], wanted), 1):
        compare_outcome(meaning, words, number, one, kind, some, len(rows), has_simplest)


def outcomes_of(rows):
    """(the kind, the rows) of each outcome, in the order of first rows; those at a limit last."""
    found = {}
    for row in rows:
        found.setdefault((row[1], row[2]), []).append(row)
    return sorted([(kind, some) for (kind, _), some in found.items()], key=lambda it: it[0] in LIMITS)


def compare_outcome(meaning, words, number, told, kind, some, total, has_simplest):
    word, _, output, _, _, final = some[0]
    best = min(some, key=lambda row: (row[4], len(row[0]), row[0]))
    wanted = {"number": number, "count": len(some), "share": reading.share_text(len(some), total), "kind": kind.split()[0], "output": " ".join(map(report.value_text, output)) or "-",
              "first": list(word)}
    if has_simplest:
        wanted |= {"simplest": list(best[0]), "switches": best[4]}
    if kind == "all-waiting":
        wanted["final"] = reading.final(final)
    if kind.startswith("run-error"):
        _, name, _, process, _, line = kind.split()
        wanted |= {"name": name, "process": int(process), "line": int(line), "text": " ".join(meaning.lines[int(line) - 1].split())}
        cause = cause_of(meaning, words, word)
        if cause and told.get("cause"):
            wanted["cause"] = {**told["cause"], **cause}
    for member, value in wanted.items():
        found = told.get(member)
        want_same(f"{member} of outcome {number}", " ".join(found.split()) if member == "text" else found, value)


# -- marks

def mark(question, source, meaning, programs):
    words = list(question.words)
    is_endless = "--ends" in words
    judged = judged_by_ends(question, meaning) if is_endless else judged_by_rows(question, meaning)
    text = " and ".join(it.text for it in question.expectations)
    told, status = programs.object(["mark", "--json", *words, text], source)
    want_same("misread", told.get("misread") if status == 2 else None, None)
    verdicts = [verdict for verdict, _ in judged]
    overall = "fails" if "fails" in verdicts else "not settled" if "not settled" in verdicts else "holds"
    want_same("status", status, {"fails": 6, "not settled": 7, "holds": 0}[overall])
    want_same("verdict", told.get("verdict"), overall)
    for one, expectation, (verdict, found) in zip(told["expectations"], question.expectations, judged):
        want_same(f"verdict of {expectation.text!r}", one["verdict"], verdict)
        if found is not None:
            want_same(f"first of {expectation.text!r}", one.get("first"), list(found))
    want_same("how many expectations", len(told["expectations"]), len(judged))


def judged_by_rows(question, meaning):
    rows = meaning.rows(list(question.words), MOST_ROWS)
    if rows is None:
        raise NotCompared("too many rows")
    shown = [(word, kind, tuple(map(report.value_text, output)), waiting) for word, kind, output, waiting, _, _ in rows]
    judged = [by_rows(expectation, shown) for expectation in question.expectations]
    return [(verdict, row and row[0]) for verdict, row in judged]


def judged_by_ends(question, meaning):
    found = meaning.waiting_ends(list(question.words))
    if found is None:
        raise NotCompared("too many states")
    ends, values = found
    if len(values) > MOST_VALUES:
        raise NotCompared("more values")
    asks_waiting = any(topic.waiting for expectation in question.expectations for topic in expectation.topics)
    waiting = meaning.waiting(list(question.words)) if asks_waiting else ()
    texts = {}
    for value, word in values.items():
        text = report.value_text(value)
        texts[text] = min(texts.get(text, word), word, key=lambda it: (len(it), it))
    is_settled = not any(kind == "step-limit" for kind, _ in ends)
    return [by_ends(expectation, ends, texts, waiting, is_settled) for expectation in question.expectations]


KINDS = {"refusal": refusal, "table": same_text, "merge": same_text, "ends": same_text, "trace": same_text, "waits": waits, "at-once": at_once,
         "outcomes": outcomes, "mark": mark}

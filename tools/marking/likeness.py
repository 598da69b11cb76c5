"""Whether a solution comes to the same as a model solution: to the same outcomes, or with --ends to the same ends, values and who may wait for ever; and who waits at
the ends at which all wait."""
import json

from .cells import Cell, unmarked
from .status import DONE, FAILS, NOT_ALL, NOT_SETTLED

# What is compared: outcomes, or with --ends ends and values; who waits at an end; who may wait for ever.
COMES, WAITING, EVER = "it comes to", "who waits at an end", "who may wait for ever"


class Ways:
    """What schedules come to: of each that is compared the ways, each with the first schedule that goes it, and a round after it. Of what is `whole` these are all;
    `is_cut` says that there was too much to look at."""

    def __init__(self, is_whole, is_cut):
        self.found, self.whole, self.is_cut = {COMES: {}, WAITING: {}, EVER: {}}, {COMES} if is_whole else set(), is_cut

    def add(self, what, way, told, again=None):
        self.found[what].setdefault(way, (word_of(told), again))


def is_endless(asked):
    return "--ends" in asked.options


def all_compared(asked):
    """Returns all that is compared."""
    made = [COMES]
    if "--at-once" not in asked.options:
        made.append(WAITING)
        if is_endless(asked) and not asked.has("--gates", "any"):
            made.append(EVER)
    return made


def compared(asked):
    """Returns the words for what is compared."""
    what = all_compared(asked)
    if not is_endless(asked):
        return "outcomes and who waits" if WAITING in what else "outcomes"
    if EVER in what:
        return "ends, who waits there, values and who may wait for ever"
    return "ends, who waits there and values" if WAITING in what else "ends and values"


def ways(solution, asked):
    """Returns what the schedules of a solution come to; or the cell that says why that is not known."""
    if is_endless(asked):
        options = asked.options_of("--ends", "--choices", "--merge")
        answer = solution.run("ends", "--json", *(["--waits"] if EVER in all_compared(asked) else []), *options)
    else:
        answer = solution.run("outcomes", "--json", *asked.options)
    if answer.status not in (0, 5) or not answer.text.startswith("{"):
        return unmarked(solution, answer)
    told = json.loads(answer.text)
    made = ends_told(told) if is_endless(asked) else outcomes_told(told)
    return with_all_who_wait(solution, asked, told, made) if WAITING in all_compared(asked) and COMES in made.whole else made


def outcomes_told(told):
    """Returns the outcomes that no limit stopped; where there is too much, those of fewer choices."""
    known = told.get("known", told)
    made = Ways(known.get("complete", False), "too_many" in told)
    limits = {it["kind"] for it in known.get("limits", [])}
    for it in known.get("outcomes", []):
        if it["kind"] not in limits:
            made.add(COMES, f"{kind_of(it)} output {it['output']}", it)
            add_who_waits(made, known, it)
    return made


def ends_told(told):
    made = Ways(told["complete"] and "more" not in told, "too_many" in told)
    names = names_of(told)
    for it in told["ends"]:
        made.add(COMES, f"{kind_of(it)} {names[it['process']]}" if it["kind"] in ("alone", "spins") else kind_of(it), it)
        if "at_once" not in told:
            add_who_waits(made, told, it)
    for it in told["shown"]:
        made.add(COMES, f"shown {it['value']}", it)
    for it in told.get("waits", []):
        made.add(EVER, f"{names[it['process']]} waits for ever", it, ".".join(map(str, it["again"])))
    if COMES in made.whole and "waits" in told:
        made.whole.add(EVER)
    return made


def kind_of(told):
    return f"{told['kind']} {told['name']}" if "name" in told else told["kind"]


def names_of(told):
    return [it["name"] for it in told["processes"]]


def word_of(told):
    return ".".join(map(str, told.get("first", told.get("by", [])))) or "-"


def add_who_waits(made, told, row):
    """Adds who waits at the end of a schedule, where all do."""
    if row["kind"] == "all-waiting" and "final" in row:
        names = names_of(told)
        made.add(WAITING, f"all-waiting: {' and '.join(names[it['process']] for it in row['final'])}", row)


def with_all_who_wait(solution, asked, told, made):
    """Adds all others who wait at the ends at which all do. Each question leaves out those who are known, so that what is against it has others. With calls made at once
    it is not known who does."""
    options = asked.options_of("--choices", "--merge") if is_endless(asked) else asked.options
    topics = ["finished", "run-error", *(["alone", "spins"] if is_endless(asked) else [])]
    rows = [it for it in told.get("ends", told.get("outcomes")) if it["kind"] == "all-waiting"]
    status = FAILS if rows else DONE
    while status == FAILS and "at_once" not in told and all("final" in it for it in rows):
        topics += (f"all-waiting {' '.join(str(it['process']) for it in row['final'])}" for row in rows)
        answer = solution.run("mark", "--json", *options, "only " + " or ".join(topics))
        status = answer.status
        if status == FAILS:
            rows = json.loads(answer.text)["expectations"]
            for row in rows:
                add_who_waits(made, told, row)
        elif status not in (DONE, NOT_ALL, NOT_SETTLED):
            return unmarked(solution, answer)
    if status == DONE:
        made.whole.add(WAITING)
    return made


def liken(solution, asked, model):
    """Returns the cell that says whether a solution comes to the same as the model."""
    mine = ways(solution, asked)
    if isinstance(mine, Cell):
        return mine
    what_is_compared = all_compared(asked)
    for what in what_is_compared:
        for way, (word, again) in mine.found[what].items():
            if what in model.whole and way not in model.found[what]:
                said = f"not of the model: {word} again {again}: {way}" if again else f"not of the model: {word} {way}"
                return Cell("fails", said, word, again)
    for what in what_is_compared:
        for way in model.found[what]:
            if what in mine.whole and way not in mine.found[what]:
                return Cell("fails", f"only of the model: {way}")
    return known_alike(what_is_compared, mine, model)


def known_alike(what_is_compared, mine, model):
    """Returns the cell of a solution of which nothing is known that it comes to otherwise than the model: that all is known of both, or why not."""
    if mine.is_cut or model.is_cut:
        return Cell("too many", "too many states or outcomes" + ("" if mine.is_cut else " of the model"))
    for what in what_is_compared:
        if what in mine.whole and what in model.whole:
            continue
        if what == COMES:
            return Cell("not settled", "a limit stopped some schedules" + (" of the model" if COMES in mine.whole else ""))
        return Cell("not settled", f"{what} was not looked at: there are too many states")
    return Cell("holds")

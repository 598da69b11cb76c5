"""The text of answers: docs/REPORT.md, A report to A trace."""
from schedules import STEP_LIMIT, outcomes

MOST_VALUES = 1000
RUN_ERRORS = ["overflow", "zero-divisor", "range", "no-case", "queue-in-use", "not-init", "init-twice", "assertion", "invariant"]
ENDS = ["finished", "all-waiting", "run-error", "step-limit", "alone", "spins"]
BASES = ["integer", "char", "boolean", "enumeration"]


def word_text(word):
    return ".".join(map(str, word)) or "-"


def value_text(value):
    """A report: a displayed value."""
    base, number = value
    if base.names:
        return base.names[number]
    if base.name == "integer":
        return str(number)
    return f"'{chr(number)}'" if 33 <= number <= 126 and number != 39 else f"'(:{number}:)'"


def outcome_text(kind, output):
    return f"{kind} output {' '.join(map(value_text, output)) or '-'}"


def table_text(table, with_rows):
    """A report."""
    lines = [f"row {word_text(word)} {outcome_text(kind, output)}" for word, kind, output in table if with_rows]
    return lines + tally_text(outcomes(table))


def tally_text(tally):
    lines = [f"{count} first {word_text(first)} {outcome_text(*outcome)}" for outcome, (count, first) in tally.items()]
    return [f"schedules {sum(count for count, _ in tally.values())}", f"outcomes {len(tally)}", *lines]


def trace_text(events, last, used, what, word):
    """A trace."""
    lines = [f"process {process} {event} holders" + "".join(f" {'free' if holder is None else holder}" for holder in holders)
             for process, event, holders in events]
    if last == "ended":
        return [*lines, f"ended {word_text(word[:used])} {outcome_text(*what)}"]
    return [*lines, "wants " + " ".join(map(str, what)) if last == "wants" else f"not-ready {used}"]


def ends_text(found):
    """Ends in schedules of any length."""
    head = [f"states {len(found.words)}"] if found.choices is None else ["too many states", f"choices {found.choices}"]
    return [*head, *found_text(found.ends.items(), found.values.items(), "first")]


def found_text(ends, values, by):
    ends, values = list(ends), list(values)
    return [f"ends {len(ends)}", *[f"{by} {word_text(word)} {end}" for end, word in ends],
            f"shown {min(len(values), MOST_VALUES)}", *[f"{by} {word_text(word)} shows {value_text(value)}" for value, word in values[:MOST_VALUES]],
            *(["more"] if len(values) > MOST_VALUES else [])]


def waits_text(lines):
    """Who may wait for ever: `lines` has a triple for each such process."""
    return [f"waits {len(lines)}", *[f"process {process} first {word_text(first)} again {word_text(again)}{how}"
                                     for process, (first, again, how) in lines.items()]]


def end_order(item):
    """Calls at once: the order of ends."""
    kind, *rest = item[0].split()
    name, process, line = (rest[0], int(rest[2]), int(rest[4])) if kind == "run-error" else ("overflow", int(rest[-1]) if rest else 0, 0)
    return ENDS.index(kind), process, line, RUN_ERRORS.index(name)


def value_order(item):
    """Calls at once: the order of values."""
    base, number = item[0]
    return BASES.index(base.name), base.token, number


def at_once_text(found):
    """Calls at once."""
    head = f"states {len(found.words)} at once" if found.choices is None else "too many states"
    return [head, *found_text(sorted(found.ends.items(), key=end_order), sorted(found.values.items(), key=value_order), "by"),
            *([f"not settled: {STEP_LIMIT}"] if STEP_LIMIT in found.ends else [])]

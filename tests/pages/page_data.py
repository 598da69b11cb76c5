"""The data of a page, read and played without a browser."""
import json
import re
import sys

EVENTS = {"e": "enter", "g": "enter", "l": "leave", "d": "delay", "c": "continue", "n": "continue", "w": "continue", "s": "init", "o": "display", "x": "end", "a": "admit"}
KEYS = ("event", "process", "woken", "let_in", "monitor", "routine", "queue", "target_process", "line", "status", "holders")


def data_of(page):
    return json.loads(re.search(rb'<script type="application/json" id="data">(.*?)</script>', page, re.S).group(1))


class Play:
    """A word that is played over the graph of a page, choice by choice."""

    def __init__(self, data, is_brief=False):
        self.data, self.strings, self.is_brief = data, data["strings"], is_brief
        self.status = [{"is": "ready" if p == 0 else "unstarted"} for p in range(len(data["processes"]))]
        self.holders = [None] * len(data["monitors"])
        self.lines = [[] for _ in data["monitors"]]
        self.calls = [[] for _ in data["processes"]]
        self.values = [self.strings[value] if value >= 0 else None for *_, value in data["variables"]]
        self.events, self.output, self.used = [], [], 0
        self.follow(data["start"][0], None)

    def options(self):
        return self.data["nodes"][self.node][1][::2]

    def is_open(self):
        """Whether the page does not go on from here."""
        return self.end is None and self.data["nodes"][self.node][1][1] < 0

    def take(self, number):
        pairs, options = self.data["nodes"][self.node][1], self.options()
        self.used += 1
        self.follow(pairs[2 * options.index(number) + 1], {"number": number, "options": options})

    def follow(self, edge, choice):
        events, to = self.data["edges"][edge]
        if self.is_brief and to < 0 and self.data["ends"][-1 - to][0] == "alone":
            events = first_round(events)
        for place, event in enumerate(events):
            self.happen(self.data["events"][event], choice if place == 0 else None)
        if to < 0:
            self.end = self.data["ends"][-1 - to]
        else:
            self.end = ["choice-limit", "", 0, 0] if self.used == self.data["choices"] else None
        self.node = to

    def enter(self, process, monitor):
        self.status[process] = {"is": "ready"}
        self.holders[monitor] = process
        if process in self.lines[monitor]:
            self.lines[monitor].remove(process)

    def wait_at_gate(self, process, monitor, place):
        self.status[process] = {"is": "gate", "monitor": monitor}
        self.lines[monitor].insert(place, process)

    def happen(self, event, choice):
        kind, process, line, whom, text, woken, let_in, changes, _ = event
        text = "" if kind == "s" else self.strings[text]
        told = {"event": EVENTS[kind], "process": process, "woken": woken, "let_in": let_in}
        if kind in "eg":
            self.calls[process].append((whom, text, line))
            told["monitor"], told["routine"] = whom, text.split("(")[0]
        if kind in "ea":
            self.enter(process, whom)
        if kind == "g":
            self.wait_at_gate(process, whom, len(self.lines[whom]))
        if kind == "s":
            self.status[whom] = {"is": "ready"}
            told["target_process"] = whom
        if kind == "o":
            self.output.append(text)
        if kind == "x":
            self.status[process] = {"is": "ended"}
        if kind == "d":
            self.status[process] = {"is": "delayed", "monitor": whom, "queue": text}
        if kind in "dcnw":
            told["queue"] = text
        if kind in "dcnwla":
            told["monitor"], told["routine"] = whom, self.calls[process][-1][1].split("(")[0]
        if kind == "l":
            line = self.calls[process][-1][2]
        if kind in "lc":
            self.calls[process].pop()
        # Who was resumed comes to the end of the line, or the caller to its beginning.
        if kind == "n":
            for other in woken:
                self.wait_at_gate(other, whom, len(self.lines[whom]))
        if kind == "w" and woken:
            self.wait_at_gate(process, whom, 0)
        if kind in "ldc" or kind == "w" and woken:
            self.holders[whom] = None
            for other in woken + let_in:
                self.enter(other, whom)
        told["changes"] = self.changed(changes)
        if line:
            told["line"] = line
        if choice:
            told["choice"] = choice
        told["status"], told["holders"] = [dict(status) for status in self.status], list(self.holders)
        self.events.append(told)

    def changed(self, changes):
        """What changed in monitors; the other values are kept as well."""
        told = []
        for place, value in zip(changes[::2], changes[1::2]):
            is_own, owner, name, _ = self.data["variables"][place]
            self.values[place] = self.strings[value]
            if not is_own:
                told.append((owner, self.strings[name], self.strings[value]))
        return told


def written(value):
    """A value of JSON as the text of a trace has it."""
    if isinstance(value, bool):
        return str(value).lower()
    if isinstance(value, list):
        return "[" + ", ".join(map(written, value)) + "]"
    if isinstance(value, dict):
        return "(" + ", ".join(f"{name}: {written(member)}" for name, member in value.items()) + ")"
    return str(value)


def event_fault(ours, theirs):
    """What differs between the events that were played and those of a trace; empty where nothing does."""
    for a, b in zip(ours, theirs):
        for key in KEYS:
            if a.get(key) != b.get(key):
                return f"{key}: {a.get(key)} {b.get(key)}"
        choices = [choice and (choice["number"], choice["options"]) for choice in (a.get("choice"), b.get("choice"))]
        if choices[0] != choices[1]:
            return f"choice: {choices}"
        # A set and a list are one kind in JSON.
        plain = [[(owner, name, re.sub(r"[\[\]{}]", "", value)) for owner, name, value in changes] for changes in
                 (a["changes"], [(c["monitor"], c["name"], written(c["value"])) for c in b["changes"]])]
        if plain[0] != plain[1]:
            return f"changes: {plain}"
    return "" if len(ours) == len(theirs) else f"{len(ours)} events, {len(theirs)}"


def first_round(events):
    """The least beginning after which the rest repeats the part at its end, twice at least: what the page shows of a stretch that never ends."""
    for end in range(1, len(events)):
        for length in range(1, end + 1):
            begin = end - length
            if len(events) - begin >= 2 * length and all(events[at] == events[at - length] for at in range(end, len(events))):
                return events[:end]
    return events


def played(data, word):
    """A word that can be played, or None."""
    play = Play(data)
    for number in word:
        if play.end is not None or number not in play.options() or play.is_open():
            return None
        play.take(number)
    return play


def prospects_of(data):
    """What can come from each state: its ends as (kind, error, process, line), "for-ever" for a way without an end, "beyond" for where the page ends."""
    ways = [[data["edges"][edge][1] if edge >= 0 else None for edge in pairs[1::2]] for _, pairs, *_ in data["nodes"]]
    found = [{"beyond" if to is None else tuple(told(data["ends"][-1 - to])) for to in goals if to is None or to < 0} for goals in ways]
    for node, height in enumerate(heights_of(data)):
        if height is None:
            found[node].add("for-ever")
    is_done = False
    while not is_done:
        is_done = True
        for node, goals in enumerate(ways):
            more = set().union(*(found[to] for to in goals if to is not None and to >= 0))
            if not more <= found[node]:
                found[node] |= more
                is_done = False
    return found


def told(end):
    """An end without the line of who goes on, as it is told of schedules of any length."""
    return [*end[:3], 0] if end[0] in ("alone", "spins") else limited(end)


def random_plays(data, count, rng, most=60):
    """Random ways to an end, or to where the page ends, or of so many choices."""
    for _ in range(count):
        play, word = Play(data), []
        while play.end is None and not play.is_open() and len(word) < most:
            word.append(rng.choice(play.options()))
            play.take(word[-1])
        yield word, play


def is_whole(data):
    """Whether the page goes on from all its states."""
    return all(pairs[1] >= 0 for _, pairs, *_ in data["nodes"])


def heights_of(data):
    """The most choices that can follow each state; None where there is no bound, or none that the page knows."""
    edges = data["edges"]
    following = [[edges[edge][1] for edge in pairs[1::2] if edge >= 0 and edges[edge][1] >= 0] for _, pairs, *_ in data["nodes"]]
    before = [[] for _ in following]
    for node, nodes in enumerate(following):
        for other in nodes:
            before[other].append(node)
    missing = [len(nodes) for nodes in following]
    heights = [None] * len(following)
    done = [node for node, count in enumerate(missing) if count == 0 and data["nodes"][node][1][1] >= 0]
    while done:
        node = done.pop()
        heights[node] = 1 + max((heights[other] for other in following[node]), default=0)
        for other in before[node]:
            missing[other] -= 1
            if missing[other] == 0:
                done.append(other)
    return heights


def onward_of(data, node, left):
    """What the page tells of a state that it does not go on from, with so many choices left: (kind, error, process, line, output) -> count. None if it tells nothing."""
    told = data["nodes"][node][2] if len(data["nodes"][node]) > 2 else []
    rows = dict(zip(told[::2], told[1::2]))
    if left not in rows:
        return None
    row = data["ways"][rows[left]]
    return {(*data["further"][place][0], data["strings"][data["further"][place][1]]): int(count) for place, count in zip(row[::2], row[1::2])}


def edge_of(data):
    """The states that the page does not go on from: (word that leads there, state, choices left), each with each number of choices left once."""
    first = data["edges"][data["start"][0]][1]
    layer = {first: []} if first >= 0 else {}
    for left in range(data["choices"], 0, -1):
        following = {}
        for node, word in layer.items():
            pairs = data["nodes"][node][1]
            if pairs[1] < 0:
                yield word, node, left
                continue
            for option, edge in zip(pairs[::2], pairs[1::2]):
                to = data["edges"][edge][1]
                if to >= 0:
                    following.setdefault(to, word + [option])
        layer = following


def is_counted(data):
    """Whether the page tells what comes of each state that it does not go on from."""
    return all(onward_of(data, node, left) is not None for _, node, left in edge_of(data))


class Counts:
    """How many schedules lead on from each state, added up over the graph: (kind, error, process, line, output) -> count."""

    def __init__(self, data):
        sys.setrecursionlimit(100000)
        self.data, self.memo, self.heights, self.nodes, self.edges = data, {}, heights_of(data), data["nodes"], data["edges"]
        self.shown = [" ".join(data["strings"][data["events"][e][4]] for e in events if data["events"][e][0] == "o") for events, _ in self.edges]

    def ways(self, node, left):
        key = node, left if self.heights[node] is None else min(left, self.heights[node])
        if key not in self.memo:
            self.memo[key] = self.count(node, left)
        return self.memo[key]

    def count(self, node, left):
        if left == 0:
            return {("choice-limit", "", 0, 0, ""): 1}
        pairs = self.nodes[node][1]
        if pairs[1] < 0:
            return onward_of(self.data, node, left)
        found = {}
        for edge in pairs[1::2]:
            for outcome, count in self.through(edge, left).items():
                found[outcome] = found.get(outcome, 0) + count
        return found

    def through(self, edge, left):
        to = self.edges[edge][1]
        rest = self.ways(to, left - 1) if to >= 0 else {(*limited(self.data["ends"][-1 - to]), ""): 1}
        added = {}
        for (*end, output), count in rest.items():
            outcome = (*end, " ".join(filter(None, [self.shown[edge], output])))
            added[outcome] = added.get(outcome, 0) + count
        return added


def counts_of(data):
    """How many schedules come to each outcome."""
    return Counts(data).through(data["start"][0], data["choices"] + 1)


def limited(end):
    """An end without who came to it, if that is no run error."""
    return end[:4] if end[0] == "run-error" else [end[0], "", 0, 0]

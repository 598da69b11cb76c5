"""Schedules of any length: docs/SEMANTICS.md, Schedules of any length; docs/REPORT.md, Ends in schedules of any length and its parts."""
from collections import deque
from components import AT_GATE, DELAYED
from schedules import STEP_LIMIT, Graph, Stretch, stretch

MOST_IN_A_ROW = 8


class Moments:
    """Processes that wait, are ready, and are in a call of a monitor, at all of some moments, or at one of them; and who made a step.

    Kernel calls alone change these, so it is enough to look after each of them.
    """

    def __init__(self, s):
        self.waiting, self.ready, self.in_call = (set(range(len(s.statuses))) for _ in range(3))
        self.once_waiting, self.once_ready, self.stepped = set(), set(), set()
        self.look(s)

    def look(self, s, stepped=None):
        waiting = {process for process, status in enumerate(s.statuses) if status[0] in (AT_GATE, DELAYED)}
        ready = set(s.ready())
        self.waiting &= waiting
        self.ready &= ready
        self.in_call &= {process for process in self.in_call if s.open_entries(process)}
        self.once_waiting |= waiting
        self.once_ready |= ready
        self.stepped |= {stepped} - {None}


def is_fair(moments):
    """Each process makes a step or is not ready at some moment. Of a round, or of all stretches of a part in which each leads to each."""
    stepped = set().union(*[one.stepped for one in moments])
    return moments[0].ready.intersection(*[one.ready for one in moments]) <= stepped


class EndlessGraph(Graph):
    """A stretch here has besides: `round`, the moments of what repeats, or None; `at_once`, whether its first call may be made at once;
    and for `--waits` its `moments`."""

    def __init__(self, machine, most_steps, waits):
        super().__init__(machine, most_steps)
        self.waits = waits

    def stretch(self, s, process):
        found, phases = Stretch(), list(s.phases)
        found.moments, found.round, found.at_once = Moments(s) if self.waits else None, None, None

        def after(process, event):
            if found.moments:
                found.moments.look(s, process)
            if found.at_once is None:                                        # Calls at once
                found.at_once = event != "enter" and s.phases == phases
        kind, process = stretch(self.machine, s, process, self.most_steps, after)
        found.shown = tuple(s.shown)
        if kind == STEP_LIMIT:
            kind, found.round = self.repeats(s, process)
            if found.round:
                found.shown = tuple(s.shown)
                if found.moments:
                    found.moments.once_ready |= found.round.once_ready
        self.arrive(found, s, kind)
        return found

    def repeats(self, s, process):
        """A stretch can repeat: up to L more steps come back to the state and the process after the first L."""
        first, start, items = process, s.frozen(), list(s.items[process])
        round, calls = Moments(s), []

        def after(process, event):
            round.look(s, process)
            calls.append(event)
        for _ in range(self.most_steps):
            round.stepped.add(process)
            kind, process = stretch(self.machine, s, process, 1, after)
            if kind != STEP_LIMIT:
                break
            if process == first and s.items[process] == items and s.frozen() == start:
                return f"{'alone' if calls else 'spins'} process {first}", round
        return STEP_LIMIT, None


class Found:
    """What a search tells: of each end and each value the first word; how many states; after too many, of how many choices it speaks."""

    def __init__(self):
        self.ends, self.values, self.states, self.choices, self.words = {}, {}, 0, None, {}

    def note(self, stretched, word):
        for value in stretched.shown:
            self.values.setdefault(value, word)
        if stretched.end is not None:
            self.ends.setdefault(stretched.end, word)


def ends(graph, most_states):
    """Breadth first: each state is expanded once, in the order of the words, the shorter first. After too many states what was found in
    the layer that was not finished is left out."""
    found = Found()

    def arrive(stretched, word):
        if stretched.node is not None and stretched.node not in found.words:
            found.words[stretched.node] = word
            next_layer.append(stretched.node)

    next_layer = []
    found.note(graph.after(None, None), ())
    arrive(graph.after(None, None), ())
    depth = 0
    while next_layer:
        layer, next_layer, notes = next_layer, [], []
        for node in layer:
            for number in graph.choices(node):
                word = found.words[node] + (number,)
                notes.append((graph.after(node, number), word))
                arrive(*notes[-1])
                if len(found.words) > most_states:
                    found.choices = depth
                    return found
        for stretched, word in notes:
            found.note(stretched, word)
        depth += 1
    return found


def at_once(graph, most_states):
    """Calls at once: a choice that may be made at once leads on to a state that is not kept, up to eight in a row."""
    found, kept = Found(), deque()

    def arrive(stretched, word):
        found.note(stretched, word)
        for _ in range(MOST_IN_A_ROW):
            if stretched.node is None:
                return
            number = next((number for number in graph.choices(stretched.node) if graph.after(stretched.node, number).at_once), None)
            if number is None:
                break
            stretched, word = graph.after(stretched.node, number), word + (number,)
            found.note(stretched, word)
        if stretched.node is not None and stretched.node not in found.words:
            found.words[stretched.node] = word
            kept.append(stretched.node)

    arrive(graph.after(None, None), ())
    while kept and len(found.words) <= most_states:
        node = kept.popleft()
        for number in graph.choices(node):
            arrive(graph.after(node, number), found.words[node] + (number,))
    if len(found.words) > most_states:
        found.choices = 0
    return found


def connected(edges):
    """The strongly connected parts of a graph, as a list of sets; `edges` has for each node a list of (number, stretch)."""
    finished, seen = [], set()
    for root in edges:
        trail = [] if root in seen else [(root, iter(edges[root]))]
        seen.add(root)
        while trail:
            node, rest = trail[-1]
            node = next((found.node for _, found in rest if found.node in edges and found.node not in seen), None)
            if node is None:
                finished.append(trail.pop()[0])
            else:
                seen.add(node)
                trail.append((node, iter(edges[node])))
    back = {node: [] for node in edges}
    for node in edges:
        for _, found in edges[node]:
            if found.node in edges:
                back[found.node].append(node)
    parts, placed = [], set()
    for root in reversed(finished):
        if root not in placed:
            parts.append(reached(back, {root}, placed))
    return parts


def reached(edges, roots, seen):
    """The nodes to which these edges lead from the roots, and which were not seen; now they are."""
    part, trail = set(roots), list(roots)
    seen |= part
    while trail:
        for node in edges[trail.pop()]:
            if node not in seen:
                seen.add(node)
                part.add(node)
                trail.append(node)
    return part


class Waits:
    """Who may wait for ever."""

    def __init__(self, graph, found):
        self.words, self.processes = found.words, range(len(graph.machine.components.processes))
        self.edges = {node: [(number, graph.after(node, number)) for number in graph.choices(node)] for node in found.words}
        self.first = graph.after(None, None)
        self.back = {node: [] for node in self.edges}
        for node, edges in self.edges.items():
            for _, stretched in edges:
                if stretched.node is not None:
                    self.back[stretched.node].append(node)

    def lines(self):
        lines = {process: self.line(process) for process in self.processes}
        return {process: line for process, line in lines.items() if line is not None}

    def line(self, process):
        """(first word, round, how) of a process that may wait for ever, or None."""
        lassos = list(self.fair_parts(lambda moments: process in moments.waiting))
        wakes = {node for node, edges in self.edges.items() if any(process in found.moments.once_ready for _, found in edges)}
        hopeful = reached(self.back, wakes, set())
        for part in sorted(lassos, key=lambda part: min(part) not in hopeful):
            return (*self.lasso(part), "" if min(part) in hopeful else " for good")
        for word, found in self.endings():
            if found.round and process in found.round.waiting and is_fair([found.round]):
                return word, (), " for good"
        for part in self.fair_parts(lambda moments: process in moments.in_call):
            if any(process in moments.once_waiting for moments in moments_of(part)):
                return (*self.lasso(part, waits=process), " in its call")
        return None

    def endings(self):
        yield (), self.first
        for node, edges in self.edges.items():
            for number, found in edges:
                yield self.words[node] + (number,), found

    def fair_parts(self, holds):
        """The strongly connected parts along edges of which this holds, with such edges in them, that are fair; each with its edges."""
        edges = {node: [(number, found) for number, found in edges if found.node is not None and holds(found.moments)]
                 for node, edges in self.edges.items()}
        for nodes in connected(edges):
            part = {node: [(number, found) for number, found in edges[node] if found.node in nodes] for node in nodes}
            if moments_of(part) and is_fair(moments_of(part)):
                yield part

    def lasso(self, part, waits=None):
        """A word to the first state of the part, and a round from there in which each process steps that steps in the part."""
        start = at = min(part)
        round = ()
        for process in sorted(set().union(*[moments.stepped for moments in moments_of(part)])):
            word, at = way(part, at, lambda found: process in found.moments.stepped)
            round += word
        if waits is not None:
            word, at = way(part, at, lambda found: waits in found.moments.once_waiting)
            round += word
        return self.words[start], round + (way(part, at, lambda found: found.node == start)[0] if at != start else ())


def moments_of(part):
    return [found.moments for edges in part.values() for _, found in edges]


def way(part, start, holds):
    """A shortest word along the edges of a part whose last edge is such a one, and where it leads."""
    ways, trail = {start: ()}, deque([start])
    while True:
        at = trail.popleft()
        for number, found in part[at]:
            if holds(found):
                return ways[at] + (number,), found.node
            if found.node not in ways:
                ways[found.node] = ways[at] + (number,)
                trail.append(found.node)

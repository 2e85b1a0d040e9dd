"""Every state that a small desk can reach, and runs that try every command in each of them.

The programs have 1,024 nodes and 8 lists, so the commands keep to the first few of each, and to numbers that are out
of range for both.
"""
import collections

import model

BAD_LIST, BAD_NODE = 8, 1024


def commands(nodes, lists):
    """Every command over these nodes and lists, with each number out of range once, and two lines that are refused 11."""
    for command in range(0x01, 0x14):
        others = [*range(lists), BAD_LIST] if command in model.USES_OTHER else [0]
        named = [*range(nodes), BAD_NODE] if command in model.USES_NODE else [0]
        for at in [*range(lists), BAD_LIST]:
            for other in others:
                for node in named:
                    yield b"%02x%02x%02x%04x" % (command, at, other, node)
    yield from (b"1400000000", b"1400000001", b"")


def fork(desk):
    """A desk of its own in the same state."""
    twin = model.Desk(desk.nodes, 0)
    twin.seqs = [seq[:] for seq in desk.seqs]
    twin.places = desk.places[:]
    twin.linked, twin.stranded = set(desk.linked), set(desk.stranded)
    return twin


class Graph:
    """The states, each with a shortest way to it, and what each command makes of it."""

    def __init__(self, nodes, lists):
        self.nodes, self.lists = nodes, lists
        self.commands = list(commands(nodes, lists))
        start = model.Desk(nodes, lists)
        self.ways = {start.state(): ()}
        self.steps = []
        waiting = collections.deque([start])
        while waiting:
            desk = waiting.popleft()
            way = self.ways[desk.state()]
            for line in self.commands:
                after = fork(desk)
                after.answer(line)
                self.steps.append((way, line, tuple(after.stranded)))
                if after.state() not in self.ways:
                    self.ways[after.state()] = way + (line,)
                    waiting.append(after)
        self.probes = list(self.make_probes())

    def make_probes(self):
        """Lines whose answers show a whole state: what is beside each cursor, each list both ways, each linked mark."""
        for at in range(self.lists):
            for command in (0x09, 0x0A, 0x0A, 0x09, 0x0F):
                yield b"%02x%02x000000" % (command, at)
            for command in (0x09, 0x0A):
                yield from [b"%02x%02x000000" % (command, at)] * (self.nodes + 1)
        yield b"1400000000"
        for node in range(self.nodes):
            yield b"110000%04x" % node

    def runs(self):
        """One run a state and command, for desks that start afresh."""
        for way, line, _ in self.steps:
            yield b"\n".join((*way, line, *self.probes)) + b"\n"

    def short_runs(self):
        """The same without probes, for desks that can be dumped."""
        for way, line, _ in self.steps:
            yield b"\n".join((*way, line)) + b"\n"

    def files(self):
        """All runs one after another on as few desks as can be.

        After each run the lists are cleared. Stranded nodes cannot be had back, so other nodes take their part; when
        there are too few left, a new file begins. The lists take turns too.
        """
        live, unused, lines = list(range(self.nodes)), self.nodes, []
        for turn, (way, line, stranded) in enumerate(self.steps):
            spread = [(turn + at * 3) % BAD_LIST for at in range(self.lists)]
            lines += [renamed(each, live, spread) for each in (*way, line, *self.probes)]
            lines += [b"0d%02x000000" % at for at in spread]
            for node in stranded:
                live[node] = unused
                unused += 1
            if unused + self.nodes > BAD_NODE:
                yield b"\n".join(lines) + b"\n"
                live, unused, lines = list(range(self.nodes)), self.nodes, []
        yield b"\n".join(lines) + b"\n"


def renamed(line, nodes, lists):
    """The line with other nodes and lists; those out of range stay."""
    got = model.fields(line)
    if got is None or got[0] == model.AUDIT:
        return line
    command, at, other, node = got
    if command in model.USES_NODE and node < len(nodes):
        node = nodes[node]
    if command in model.USES_OTHER and other < len(lists):
        other = lists[other]
    return b"%02x%02x%02x%04x" % (command, lists[at] if at < len(lists) else at, other, node)

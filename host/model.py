#!/usr/bin/env python3
"""A model of the desk on plain sequences, written from the rules alone: no words, no xor.

Use: model.py [--nodes N] [--lists M] [--runs] [--dump] < LINES > ANSWERS
With --dump each answer is followed by what each list reads forward and backward, and the linked nodes.
With --runs the input is many runs, each a length of four bytes (high byte first) and that many command
bytes; each run has a fresh desk, and its answers come back in the same form.
"""
import argparse
import sys

NONE = 0xFFFF
HEX = frozenset(b"0123456789abcdef")
USES_NODE = frozenset((0x01, 0x02, 0x04, 0x10, 0x11))
USES_OTHER = frozenset((0x05, 0x06, 0x07, 0x08, 0x0C))
WANTS_EMPTY = frozenset((0x07, 0x08, 0x0C))
AUDIT = 0x14
WRONG_LINE = b"0bffffffff\n"
NO_LIST = b"02ffffffff\n"


def lines_of(data):
    """The lines of the input, without LF. A last line without LF counts if it has a byte."""
    parts = data.split(b"\n")
    if not parts[-1]:
        parts.pop()
    return parts


def fields(line):
    """Command, list, other list and node; None if the line is refused 11."""
    if len(line) != 10 or not HEX.issuperset(line):
        return None
    value = int(line, 16)
    command, at, other, node = value >> 32, value >> 24 & 255, value >> 16 & 255, value & 0xFFFF
    if not 1 <= command <= AUDIT:
        return None
    if node and command not in USES_NODE:
        return None
    if other and command not in USES_OTHER:
        return None
    if at and command == AUDIT:
        return None
    return command, at, other, node


class Desk:
    """Sequences, one place a list (an index, or None at null), linked and stranded nodes."""

    def __init__(self, nodes=1024, lists=8):
        self.nodes = nodes
        self.seqs = [[] for _ in range(lists)]
        self.places = [None] * lists
        self.linked = set()
        self.stranded = set()

    def state(self):
        """All that later answers can depend on, as one value."""
        seqs = tuple(map(tuple, self.seqs))
        return seqs, tuple(self.places), tuple(sorted(self.stranded))

    def dump(self):
        """Every list forward and backward, and the linked nodes."""
        read = "".join(f"{at} forward {seq}\n{at} backward {seq[::-1]}\n" for at, seq in enumerate(self.seqs))
        return f"{read}linked {sorted(self.linked)}\n".encode()

    def shown(self, at):
        place = self.places[at]
        return NONE if place is None else self.seqs[at][place]

    def answer(self, line):
        """Runs one line (without LF) and gives its answer, LF last."""
        got = fields(line)
        if got is None:
            return WRONG_LINE
        command, at, other, node = got
        if command == AUDIT:
            return b"00%04x%04x\n" % (sum(map(len, self.seqs)), len(self.stranded))
        count = len(self.seqs)
        if at >= count or (command in USES_OTHER and other >= count):
            return NO_LIST
        refusal, out = self.refusal(command, at, other, node), NONE
        if not refusal:
            out = EDITS[command](self, at, other, node)
        return b"%02x%04x%04x\n" % (refusal, self.shown(at), NONE if out is None else out)

    def refusal(self, command, at, other, node):
        """3, 6, 7, 8 or 9, in that order of testing; 0 if the command is accepted."""
        if command in USES_OTHER and at == other:
            return 3
        if command in WANTS_EMPTY and self.seqs[other]:
            return 6
        if command in USES_NODE and node >= self.nodes:
            return 7
        if command in (0x03, 0x04) and self.places[at] is None:
            return 8
        if command in (0x12, 0x13) and not self.seqs[at]:
            return 8
        if command in USES_NODE and node in self.linked:
            return 9
        return 0

    def insert_after(self, at, other, node):
        place = self.places[at]
        self.seqs[at].insert(0 if place is None else place + 1, node)
        self.linked.add(node)

    def insert_before(self, at, other, node):
        place = self.places[at]
        if place is None:
            self.seqs[at].append(node)
        else:
            self.seqs[at].insert(place, node)
            self.places[at] = place + 1
        self.linked.add(node)

    def remove(self, at, other, node):
        place = self.places[at]
        out = self.seqs[at].pop(place)
        if place == len(self.seqs[at]):
            self.places[at] = None
        self.linked.discard(out)
        return out

    def replace(self, at, other, node):
        place = self.places[at]
        out = self.seqs[at][place]
        self.seqs[at][place] = node
        self.linked.discard(out)
        self.linked.add(node)
        return out

    def splice_after(self, at, other, node):
        place = 0 if self.places[at] is None else self.places[at] + 1
        self.seqs[at][place:place] = self.empty(other)

    def splice_before(self, at, other, node):
        place, part = self.places[at], self.empty(other)
        if place is None:
            self.seqs[at] += part
        else:
            self.seqs[at][place:place] = part
            self.places[at] = place + len(part)

    def split_after(self, at, other, node):
        place = self.places[at]
        cut = 0 if place is None else place + 1
        self.seqs[other] = self.seqs[at][cut:]
        del self.seqs[at][cut:]
        self.places[other] = None

    def split_before(self, at, other, node):
        place = self.places[at]
        if place is None:
            return self.split_after(at, other, node)
        self.seqs[other] = self.seqs[at][:place]
        del self.seqs[at][:place]
        self.places[at], self.places[other] = 0, None

    def move_next(self, at, other, node):
        place, length = self.places[at], len(self.seqs[at])
        place = 0 if place is None else place + 1
        self.places[at] = place if place < length else None

    def move_prev(self, at, other, node):
        place, length = self.places[at], len(self.seqs[at])
        place = (length if place is None else place) - 1
        self.places[at] = place if place >= 0 else None

    def reverse(self, at, other, node):
        self.seqs[at].reverse()
        self.places[at] = None

    def take(self, at, other, node):
        self.seqs[other] = self.empty(at)
        self.places[other] = None

    def clear(self, at, other, node):
        self.linked.difference_update(self.empty(at))

    def fast_clear(self, at, other, node):
        self.stranded.update(self.empty(at))

    def to_null(self, at, other, node):
        self.places[at] = None

    def push_front(self, at, other, node):
        self.seqs[at].insert(0, node)
        self.places[at] = None
        self.linked.add(node)

    def push_back(self, at, other, node):
        self.seqs[at].append(node)
        self.places[at] = None
        self.linked.add(node)

    def pop_front(self, at, other, node):
        return self.pop(at, 0)

    def pop_back(self, at, other, node):
        return self.pop(at, -1)

    def pop(self, at, place):
        out = self.seqs[at].pop(place)
        self.places[at] = None
        self.linked.discard(out)
        return out

    def empty(self, at):
        """Leaves the list empty with its cursor at null; gives what was on it."""
        part, self.seqs[at], self.places[at] = self.seqs[at], [], None
        return part


EDITS = dict(enumerate((
    Desk.insert_after, Desk.insert_before, Desk.remove, Desk.replace,
    Desk.splice_after, Desk.splice_before, Desk.split_after, Desk.split_before,
    Desk.move_next, Desk.move_prev, Desk.reverse, Desk.take, Desk.clear, Desk.fast_clear,
    Desk.to_null, Desk.push_front, Desk.push_back, Desk.pop_front, Desk.pop_back), 1))


def run(data, nodes=1024, lists=8, dump=False):
    """The answers to a whole input, from a fresh desk."""
    desk = Desk(nodes, lists)
    if dump:
        return b"".join(desk.answer(line) + desk.dump() for line in lines_of(data))
    return b"".join(map(desk.answer, lines_of(data)))


def runs_of(data):
    """The parts of an input that has a length before each part."""
    parts, i = [], 0
    while i < len(data):
        size = int.from_bytes(data[i:i + 4], "big")
        parts.append(data[i + 4:i + 4 + size])
        i += 4 + size
    return parts


def join_runs(parts):
    """The other way: a length before each part."""
    return b"".join(len(p).to_bytes(4, "big") + p for p in parts)


def main():
    args = argparse.ArgumentParser(description="the desk on plain sequences")
    args.add_argument("--nodes", type=int, default=1024)
    args.add_argument("--lists", type=int, default=8)
    args.add_argument("--runs", action="store_true")
    args.add_argument("--dump", action="store_true")
    got = args.parse_args()
    data = sys.stdin.buffer.read()
    if got.runs:
        out = join_runs([run(part, got.nodes, got.lists, got.dump) for part in runs_of(data)])
    else:
        out = run(data, got.nodes, got.lists, got.dump)
    sys.stdout.buffer.write(out)


if __name__ == "__main__":
    main()

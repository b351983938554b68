#!/usr/bin/env python3
"""A second implementation, in plain Python, to compare with: stages, the as-run record, sequencers as sets, and rooms.

    python3 tests/reference.py asrun < samples/day.cues
    python3 tests/reference.py byhand
    python3 tests/reference.py tworooms
"""
import struct
import sys
from itertools import zip_longest

M32, M64 = 2**32, 2**64


def folded(numbers, code=0):
    for n in numbers:
        code = (31 * code + n) % M32
    return code


class Journal:
    def __init__(self):
        self.handled, self.digest = 0, 0

    def handle(self, sequence, words, marks):
        code = folded([sequence, *words])
        self.handled = (self.handled + 1) % M64
        self.digest = folded([code], self.digest)
        return code

    def figures(self):
        return [self.handled, self.digest]


class Check:
    def __init__(self):
        self.good, self.bad, self.last = 0, 0, [None] * 16

    def fault(self, channel, action, item, frame):
        if channel > 15:
            return 1
        if action > 3:
            return 2
        if frame > 2_159_999:
            return 3
        if self.last[channel] is not None and frame < self.last[channel]:
            return 4
        return 0

    def handle(self, sequence, words, marks):
        mark = self.fault(*words)
        if mark == 0:
            self.good = (self.good + 1) % M64
            self.last[words[0]] = words[3]
        else:
            self.bad = (self.bad + 1) % M64
        return mark

    def figures(self):
        return [self.good, self.bad] + [0 if f is None else f + 1 for f in self.last]


class Air:
    def __init__(self):
        self.obeyed, self.channels = 0, [("black", 0)] * 16

    def handle(self, sequence, words, marks):
        channel, action, item, _ = words
        if channel > 15 or action > 3:
            return 1
        state, on = self.channels[channel]
        if action == 0:
            after = ("playing", item)
        elif action == 3:
            after = ("black", 0)
        elif (action, state) == (1, "playing"):
            after = ("held", on)
        elif (action, state) == (2, "held"):
            after = ("playing", on)
        else:
            return 1
        self.channels[channel] = after
        self.obeyed = (self.obeyed + 1) % M64
        return 0

    def figures(self):
        shown = {"black": lambda i: 0, "playing": lambda i: 2 * i + 1, "held": lambda i: 2 * i + 2}
        return [self.obeyed] + [shown[state](item) for state, item in self.channels]


class Sieve:
    def __init__(self, tested, below):
        self.tested, self.below = tested, below

    def handle(self, sequence, words, marks):
        if self.tested > 7 or marks[self.tested] == 0:
            return self.below.handle(sequence, words, marks)
        return 0

    def figures(self):
        return self.below.figures()


def reach(masks, i):
    found = set()
    for j in range(len(masks)):
        if masks[i] >> j & 1:
            found |= {j} | reach(masks, j)
    return found


def in_order(bank, masks, start, events):
    """The one-after-another run: the rows of marks."""
    rows = []
    for s, words in enumerate(events, start):
        row = [0] * 8
        for i, stage in enumerate(bank):
            seen = reach(masks, i)
            row[i] = stage.handle(s, words, [m if j in seen else 0 for j, m in enumerate(row)])
        rows.append(row)
    return rows


class Sequencer:
    """By its meaning: the open set as a set."""

    def __init__(self, slots, start, ordered):
        self.slots, self.start, self.ordered = slots, start, ordered
        self.next, self.open = start, set()

    def claim(self, n, gate):
        if n == 0 or n > self.slots:
            return "refused 17"
        end = self.next + n
        if end > 2**62:
            return "refused 18"
        if end > gate + self.slots or any(s < end - self.slots for s in self.open):
            return "refused 19"
        first, self.next = self.next, end
        self.open |= set(range(first, end))
        return first

    def publish(self, lo, hi):
        span = set(range(lo, hi))
        if not span or not span <= self.open or (self.ordered and lo != min(self.open)):
            return "refused 25"
        self.open -= span
        return hi

    def first(self, start):
        return min((s for s in self.open if s >= start), default=self.next)


class Room:
    """A room with its ring and its bank. Each call answers a number, or 'refused' and the reason's number."""

    def __init__(self, start, masks, bank, capacity, producers, ordered):
        self.masks, self.bank = masks, bank
        self.sequencer = Sequencer(capacity, start, ordered)
        self.gates, self.claims = [start] * producers, [None] * producers
        self.seen, self.at, self.done = ([start] * len(masks) for _ in range(3))
        self.events, self.marks = [None] * capacity, [[0] * 8 for _ in range(capacity)]

    def call(self, name, party, *rest):
        parties, missing = (self.gates, 13) if name in ("gate", "claim", "write", "publish") else (self.masks, 14)
        if party >= len(parties):
            return f"refused {missing}"
        return getattr(self, name)(party, *rest)

    def gate(self, p):
        gating = [i for i in range(len(self.masks)) if not any(m >> i & 1 for m in self.masks)]
        self.gates[p] = min(self.done[i] for i in gating)
        return self.gates[p]

    def claim(self, p, n):
        if self.claims[p] is not None:
            return "refused 16"
        first = self.sequencer.claim(n, self.gates[p])
        if isinstance(first, int):
            self.claims[p] = [first, first, first + n]
        return first

    def write(self, p, words):
        if self.claims[p] is None:
            return "refused 20"
        _, s, end = self.claims[p]
        if s == end:
            return "refused 21"
        self.events[s % len(self.events)] = words
        self.claims[p][1] += 1
        return s

    def publish(self, p):
        if self.claims[p] is None:
            return "refused 20"
        first, unwritten, end = self.claims[p]
        if unwritten != end:
            return "refused 22"
        self.claims[p] = None
        return self.sequencer.publish(first, end)

    def look(self, i):
        upstream = [self.done[j] for j in range(8) if self.masks[i] >> j & 1]
        self.seen[i] = min(upstream) if upstream else self.sequencer.first(self.at[i])
        return self.seen[i]

    def handle(self, i):
        s = self.at[i]
        if s == self.seen[i]:
            return "refused 23"
        row = self.marks[s % len(self.marks)]
        reached = reach(self.masks, i)
        shown = [m if j in reached else 0 for j, m in enumerate(row)]
        row[i] = self.bank[i].handle(s, self.events[s % len(self.events)], shown)
        self.at[i] += 1
        return row[i]

    def commit(self, i):
        if self.done[i] == self.at[i]:
            return "refused 24"
        self.done[i] = self.at[i]
        return self.done[i]


CUES = [(3, 0, 7, 100), (4, 0, 8, 100), (3, 1, 0, 120), (4, 2, 0, 90), (3, 2, 0, 130), (4, 3, 0, 140)]

EAST = """
claim 0 2; write 0 0; claim 0 1; publish 0; write 0 1; publish 0; look 2; handle 2;
look 0; handle 0; handle 0; commit 0; look 1; handle 1; handle 1; commit 1; look 2; handle 2; handle 2; commit 2;
claim 0 2; write 0 2; write 0 3; publish 0; claim 0 1; gate 0;
claim 0 2; write 0 4; write 0 5; publish 0;
look 0; handle 0; handle 0; handle 0; handle 0; commit 0; look 1; handle 1; handle 1; handle 1; handle 1; commit 1;
look 2; handle 2; handle 2; handle 2; handle 2; handle 2; commit 2
"""

WEST = """
claim 0 2; claim 1 1; write 1 2; publish 1; look 0; handle 0; write 0 0; write 0 1; publish 0;
look 0; handle 0; commit 0; look 1; handle 1; commit 1; look 2; handle 2; claim 1 3; write 1 3; handle 0; handle 0;
commit 2; commit 0; look 1; handle 1; write 1 4; handle 1; commit 1; gate 0; look 2; handle 2; write 1 5; publish 1;
look 0; handle 0; commit 0; handle 2; look 1; handle 1; handle 0; handle 0; commit 0; commit 1; commit 2; look 2;
handle 2; look 1; handle 1; handle 1; commit 1; look 2; handle 2; handle 2; commit 2; commit 2; handle 3
"""


def tworooms():
    """What the program `tworooms` prints."""
    out, figures, marks = [], [], []
    for name, capacity, producers, ordered, order in (("east", 4, 1, True, EAST), ("west", 8, 2, False, WEST)):
        bank = [Check(), Sieve(0, Air()), Journal()]
        room = Room(0, [0, 1, 3], bank, capacity, producers, ordered)
        given, accepted, calls = [[], [], []], 0, order.split(";")
        for call in calls:
            what, party, *rest = call.split()
            rest = [CUES[int(r)] if what == "write" else int(r) for r in rest]
            answer = room.call(what, int(party), *rest)
            accepted += isinstance(answer, int)
            if what == "handle" and isinstance(answer, int):
                given[int(party)].append(answer)
        out.append(f"{name}: capacity {capacity}, producers {producers}, next {room.sequencer.next}, "
                   f"accepted {accepted} of {len(calls)} calls")
        figures.append([stage.figures() for stage in bank])
        marks.append(given)
    for i in range(3):
        for title, (east, west) in (("figures", figures), ("marks", marks)):
            pairs = [f"{a}={b}" if a == b else f"{a}/{b}" for a, b in zip_longest(east[i], west[i], fillvalue="-")]
            out.append(f"stage {i} {title}: " + " ".join(pairs))
    return "\n".join(out) + "\n"


def byhand():
    """What the program `byhand` prints."""
    out = []
    for title, ordered in (("single", True), ("multi", False)):
        out.append(f"{title}-producer sequencer")
        q, slots, accepted = Sequencer(4, 0, ordered), [0] * 4, 0
        for call in ("claim 2 0", "claim 1 0", "publish 2 3", "first 0", "publish 0 2", "first 0", "publish 2 3",
                     "first 0", "claim 2 0", "claim 1 0", "claim 5 4", "claim 1 4", "publish 3 4", "claim 1 4"):
            name, *args = call.split()
            args = [int(a) for a in args]
            answer = getattr(q, name)(*args)
            accepted += isinstance(answer, int)
            if name == "claim" and isinstance(answer, int):
                for s in range(answer, answer + args[0]):
                    slots[s % 4] = s
            text = {"claim": "claim {} with gate {}", "publish": "publish {} to {}", "first": "first from {}"}[name]
            out.append(f"{text.format(*args)}: {answer}")
        out.append("slots: " + " ".join(map(str, slots)))
        out.append(f"accepted: {accepted}")
        out.append("two made alike agree: true")
    return "\n".join(out) + "\n"


def cues(data):
    return [struct.unpack_from("<BBxxIQ", data, at) for at in range(0, len(data), 16)]


def asrun(data):
    if len(data) % 16:
        sys.exit(f"asrun: record {len(data) // 16} is cut short: {len(data) % 16} of 16 bytes")
    events = cues(data)
    bank = [Check(), Sieve(0, Air()), Journal()]
    rows = in_order(bank, [0, 1, 0], 0, events)
    lines = [[s, *words, *row[:3]] for s, (words, row) in enumerate(zip(events, rows))]
    lines += [["stage", i, *stage.figures()] for i, stage in enumerate(bank)]
    return "".join(" ".join(map(str, line)) + "\n" for line in lines)


if __name__ == "__main__":
    if sys.argv[1:] == ["asrun"]:
        sys.stdout.write(asrun(sys.stdin.buffer.read()))
    elif sys.argv[1:] == ["byhand"]:
        sys.stdout.write(byhand())
    elif sys.argv[1:] == ["tworooms"]:
        sys.stdout.write(tworooms())
    else:
        sys.exit(__doc__)

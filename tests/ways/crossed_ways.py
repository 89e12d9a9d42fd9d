"""Ways of crossings on the second simulator: one by hand, and by chance, with
a modest source and neighbours that ask anything; and boards that do one thing
otherwise, which the check has to tell.  Flow 0 of each link is the stream."""

import random

from call_bytes import word
from simulator.credit import credit
from simulator.crossing import Crossing, show, tick_all
from simulator.lend import lend
from simulator.request import expected, request
from ways.crossings import HEAD, NextSlot, link_of

SEEDS = range(40)
SLOTS = 40


def longest():
    """Rule 27.13.  F = 2, W = 2, share 1, two links with a neighbour each.
    Slot 0: the neighbour is granted slots 1 and 2, and the tile slot 3.
    Slot 3: the next neighbour is granted slot 4, and the tile slot 5."""
    links = [link_of(2, 2, [(1, cells), (1, 3)]) for cells in (2, 3)]
    crossing = Crossing(*links, {0: 0})
    told = [request(links[0], word(HEAD, 1, number, 0)) for number in (0, 1)]
    told.append(request(links[0], word(HEAD, 0, 0, 0)))
    for _ in range(2):
        crossing.serve(tick_all(links)[0])
    turns = tick_all(links)
    told += [turns, request(links[1], word(HEAD, 1, 0, 3))]
    told += crossing.serve(turns[0])
    told += [tick_all(links)[1], tick_all(links)[1]]
    wanted = [("G", 1), ("G", 2), ("G", 3), [0, "-"], ("G", 0),
              ("ask", 0, "G", 1), ("credit", 0, "C", None), 1, 0]
    return told != wanted and "%s" % told


# ---- by chance

class Way:
    """Links in a row, with a crossing between each two (rule 27.11)."""

    def __init__(self, seed, board=Crossing, short=0):
        self.dice = random.Random(seed)
        self.frame = self.dice.choice((1, 2, 3, 4, 6))
        window = self.dice.choice((2, 2, 3, 4))
        count = self.dice.randint(2, 6)
        self.share = self.dice.randint(1, self.frame)
        self.late = self.dice.randint(0, 2)
        cells = [2 * self.share] * (count - 1) + [
            (self.late + 2) * self.share]
        self.links = [self.link(window, each - short) for each in cells]
        self.crossings = [board(a, b, {0: 0})
                          for a, b in zip(self.links, self.links[1:])]
        self.due, self.up, self.shown_in = [], [], []
        self.asked = 0              # by the source in this frame

    def link(self, window, cells):
        entries = [(self.share, cells)]
        if self.share < self.frame:
            entries.append((self.frame - self.share, self.dice.randint(1, 9)))
        return link_of(self.frame, window, entries)

    def neighbours(self):
        """What they ask is open (rule 27.6); they reset nothing."""
        for link in self.links:
            for _ in range(self.dice.randint(0, 3)):
                if link.plan.flows > 1:
                    self.neighbour(link)

    def neighbour(self, link):
        position = self.dice.randrange(link.plan.slots)
        kind = self.dice.random()
        if kind < 0.7:
            now = link.ticks % link.plan.slots
            request(link, word(HEAD, 1, expected(link, 1),
                               self.dice.choice((now, now, position))))
        elif kind < 0.9:
            credit(link, 1, position)
        else:
            lend(link, 2)

    def source(self):
        """Asks within its share, for tiles that have come (rule 27.12)."""
        first = self.links[0]
        while self.asked < self.share and self.dice.random() < 0.6:
            letter, _ = request(first, word(
                HEAD, 0, expected(first, 0), first.ticks % first.plan.slots))
            self.asked += 1
            self.due.append(first.ticks)
            if letter != "G":
                yield "the source is refused"

    def end(self, turn):
        """A tile is shown `late` frames later at the latest, and its cell is
        credited (rules 27.11 and 27.14)."""
        last = self.links[-1]
        if turn == 0:
            self.up.append(last.ticks)
            until = (last.ticks // self.frame + self.late + 1) * self.frame
            self.shown_in.append(self.dice.randrange(last.ticks, until))
        for slot in [slot for slot in self.shown_in if slot <= last.ticks]:
            self.shown_in.remove(slot)
            if show(last, 0)[0] != "C":
                yield "a tile was shown and its cell not credited"

    def slot(self, asking):
        turns = tick_all(self.links)
        if self.links[0].ticks % self.frame == 0:
            self.asked = 0
        self.neighbours()
        order = list(range(len(self.crossings)))
        self.dice.shuffle(order)
        for number in order:
            for call in list(self.crossings[number].serve(turns[number])):
                if call[2] != "G" and call[0] == "ask":
                    yield "a tile is refused with %d" % call[3]
            self.neighbours()
        yield from self.end(turns[-1])
        if asking:
            yield from self.source()
        if any(crossing.waiting[0] for crossing in self.crossings):
            yield "a tile waits"

    def bound(self):
        return (len(self.links) + 1) * self.frame

    def faults(self):
        """Rules 27.12 and 27.13."""
        yield from self.source()
        for number in range(SLOTS + self.bound()):
            yield from self.slot(number < SLOTS)
        if len(self.up) < len(self.due):
            yield "a tile has not come up"
        for due, up in zip(self.due, self.up):
            if up - due >= self.bound():
                yield "a tile takes %d slots" % (up - due)


def by_chance():
    tiles = 0
    for seed in SEEDS:
        way = Way(seed)
        for fault in way.faults():
            return "seed %d: %s" % (seed, fault)
        tiles += len(way.up)
    return tiles < 400 and "only %d tiles came" % tiles


# ---- boards that are not ours

class CreditsNone(Crossing):
    def ask(self, flow):
        letter, number = request(self.leaving, self.word(self.onward[flow]))
        self.calls.append(("ask", flow, letter, number))
        if letter == "G":
            self.waiting[flow].popleft()
        return letter == "G"


class AsksNone(Crossing):
    def serve(self, turn):
        return []


class NumbersNone(Crossing):
    def word(self, flow):
        return super().word(flow) & ~(1023 << 10)


WRONG = {
    "asks in the next slot": (NextSlot, 0, "a tile waits"),
    "credits nothing": (CreditsNone, 0, "the source is refused"),
    "asks for nothing": (AsksNone, 0, "has not come up"),
    "asks with number 0": (NumbersNone, 0, "refused with 24"),
    "has a cell fewer on each link": (Crossing, 1, "refused")}


def told(board, short, words):
    """Some run of this board has the fault."""
    for seed in SEEDS:
        if any(words in fault for fault in Way(seed, board, short).faults()):
            return None
    return "not told"


def missed():
    """Names of tests, and what went wrong, or None."""
    yield "the longest way over two links, by hand", longest() or None
    yield "a way by chance", by_chance() or None
    for name, wrong in WRONG.items():
        yield "a way whose board " + name, told(*wrong)

"""Crossings on the second simulator: one by hand, and by chance, with what
others ask of both links; and boards that do one thing otherwise, which the
check has to tell."""

import random

from call_bytes import plan as plan_bytes
from call_bytes import word
from simulator.credit import credit
from simulator.crossing import Crossing, show, tick_all
from simulator.lend import lend
from simulator.link import Link
from simulator.plan import read_plan
from simulator.request import expected, request
from simulator.reset import reset

SEEDS = range(120)
SLOTS = 40
HEAD = 40               # the destination of every flow


def link_of(frame_slots, window_frames, entries):
    refusal, plan = read_plan(plan_bytes(
        frame_slots, window_frames, 400,
        [(share, cells, source, HEAD)
         for source, (share, cells) in enumerate(entries)]))
    if refusal:
        raise ValueError("refusal %d" % refusal)
    return Link(plan)


# ---- by hand

def ask(link, number, departure):
    return request(link, word(HEAD, 0, number, departure))


def one_cell():
    """Rules 27.1 to 27.4.  F = 2, W = 2, share 1 and one cell on each link.
    Slot 1: the tile is granted slot 2 and credited so.  Slot 2: the next one
    is refused with 12 and waits, its cell is full, and the in-link refuses a
    third.  Slot 3: it is granted slot 4, position 0."""
    first, second = (link_of(2, 2, [(1, 1)]) for _ in range(2))
    crossing = Crossing(first, second, {0: 0})
    told = [ask(first, 0, 0)]
    told += [tick_all([first, second]), list(crossing.serve(0)),
             ask(first, 1, 1)]
    told += [tick_all([first, second]), list(crossing.serve(0)),
             credit(second, 0, 3), ask(first, 2, 2)]
    told += [tick_all([first, second]), list(crossing.serve("-"))]
    wanted = [
        ("G", 1),
        [0, "-"], [("ask", 0, "G", 2), ("credit", 0, "C", None)], ("G", 2),
        [0, 0], [("ask", 0, "R", 12)], ("C", None), ("R", 12),
        ["-", "-"], [("ask", 0, "G", 0), ("credit", 0, "C", None)]]
    return told != wanted and "%s" % told


def shown():
    """Rule 27.5.  The tile of slot 1 was shown in slot 3: its cell is free
    from position 0 on, and a second credit is refused."""
    link = link_of(2, 2, [(1, 1)])
    told = [ask(link, 0, 0)]
    tick_all([link])
    tick_all([link])
    tick_all([link])
    told += [show(link, 0), show(link, 0), ask(link, 1, 3)]
    return told != [("G", 1), ("C", None), ("R", 15), ("G", 0)] and str(told)


# ---- by chance

class Run:
    """A crossing that is played with what others ask, and what is kept."""

    def __init__(self, seed, board=Crossing):
        self.dice = random.Random(seed)
        frame_slots = self.dice.choice((1, 2, 3, 4, 6))
        window_frames = self.dice.choice((2, 2, 3, 4))
        self.links = [self.link(frame_slots, window_frames)
                      for _ in range(2)]
        first, second = self.links
        free = list(range(second.plan.flows))
        self.dice.shuffle(free)
        self.onward = {flow: free.pop() for flow in range(first.plan.flows)
                       if free and self.dice.random() < 0.8}
        self.crossing = board(first, second, self.onward)
        self.came = [0] * first.plan.flows
        self.left = {flow: [] for flow in self.onward}
        self.refused = 0

    def link(self, frame_slots, window_frames):
        flows = self.dice.randint(1, min(3, frame_slots))
        shares = [self.dice.randint(1, frame_slots // flows)
                  for _ in range(flows)]
        return link_of(frame_slots, window_frames,
                       [(share, self.dice.randint(1, 4 * share))
                        for share in shares])

    def others(self):
        """Rule 27.6: what is not the board's alone."""
        for link, asked, credited in (
                (self.links[0], (), self.onward),
                (self.links[1], self.onward.values(), ())):
            for _ in range(self.dice.randint(0, 4)):
                self.other(link, asked, credited)

    def other(self, link, asked, credited):
        flow = self.dice.randrange(link.plan.flows)
        position = self.dice.randrange(link.plan.slots)
        kind = self.dice.random()
        if kind < 0.6 and flow not in asked:
            now = link.ticks % link.plan.slots
            request(link, word(HEAD, flow, expected(link, flow),
                               self.dice.choice((now, now, position))))
        elif kind < 0.8 and flow not in credited:
            credit(link, flow, position)
        elif 0.8 <= kind < 0.95:
            lend(link, self.dice.randrange(1 << link.plan.flows))
        elif kind >= 0.95:
            reset(link)

    def note(self, calls):
        """The faults of a slot's calls: rules 27.7 and 27.9."""
        for call in calls:
            if call[0] == "credit" and call[2] != "C":
                yield "a credit is refused with %s" % call[3]
            if call[0] == "ask" and call[2] == "G":
                self.left[call[1]].append(self.links[1].slot_of(call[3]))
            if call[0] == "ask" and call[2] == "R":
                self.refused += 1
                if call[3] not in (11, 12):
                    yield "a tile is refused with %d" % call[3]

    def counted(self, calls):
        """The faults of what is counted then: rules 27.8 to 27.10."""
        now, waiting = self.links[0].ticks, self.crossing.waiting
        for flow, left in self.left.items():
            if self.came[flow] != len(waiting[flow]) + len(left):
                yield "a tile is lost or doubled"
            gone = sum(slot <= now for slot in left)
            if self.came[flow] - gone > self.links[0].plan.cells(flow):
                yield "more tiles than cells"
            if waiting[flow] and ("ask", flow, "R") not in (
                    call[:3] for call in calls):
                yield "a tile waits and was not asked for"

    def faults(self):
        self.others()
        for _ in range(SLOTS):
            turn = tick_all(self.links)[0]
            self.others()
            if turn != "-":
                self.came[turn] += 1
            calls = list(self.crossing.serve(turn))
            yield from self.note(calls)
            yield from self.counted(calls)
            self.others()


def by_chance():
    refused = 0
    for seed in SEEDS:
        run = Run(seed)
        for fault in run.faults():
            return "seed %d: %s" % (seed, fault)
        refused += run.refused
    return refused < 500 and "only %d tiles were refused" % refused


# ---- boards that are not ours

class OnArrival(Crossing):
    """Credits as a tile comes, dated the next slot, and not when it leaves."""

    def serve(self, turn):
        if turn != "-" and self.goes_on(turn):
            show(self.arriving, turn)
        kept, self.arriving = self.arriving, Link(self.arriving.plan)
        self.arriving.ticks = kept.ticks
        calls = [call for call in super().serve(turn) if call[0] == "ask"]
        self.arriving = kept
        return calls


class Twice(Crossing):
    def ask(self, flow):
        granted = super().ask(flow)
        if granted:
            position = self.calls[-2][3]
            self.calls.append(("credit", flow)
                              + credit(self.arriving, flow, position))
        return granted


class AsItCame(Crossing):
    def word(self, flow):
        came = next(tiles[0] for source, tiles in enumerate(self.waiting)
                    if self.onward.get(source) == flow)
        return super().word(flow) & ~1023 | came % self.leaving.plan.slots


class Forgets(Crossing):
    def ask(self, flow):
        granted = super().ask(flow)
        if not granted:
            self.waiting[flow].popleft()
        return granted


class NextSlot(Crossing):
    def come(self, flow):
        self.waiting[flow].append(self.arriving.ticks)


WRONG = {
    "credits on arrival": (OnArrival, "more tiles than cells"),
    "credits twice": (Twice, "a credit is refused with 15"),
    "asks with the slot in which it came": (AsItCame, "refused with 20"),
    "forgets a refused tile": (Forgets, "a tile is lost or doubled"),
    "asks in the next slot": (NextSlot, "was not asked for")}


def told(board, words):
    """Some run of this board has the fault."""
    for seed in SEEDS:
        if any(words in fault for fault in Run(seed, board).faults()):
            return None
    return "not told"


def missed():
    """Names of tests, and what went wrong, or None."""
    yield "one cell on each link, by hand", one_cell() or None
    yield "a tile that was shown, by hand", shown() or None
    yield "by chance", by_chance() or None
    for name, (board, words) in WRONG.items():
        yield "a board that " + name, told(board, words)

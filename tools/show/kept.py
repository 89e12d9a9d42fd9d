"""The window, kept by the lines of a trace alone (rule 26.10).  Nothing is
scheduled here: each line says from which slot on a flow holds more or less,
and what it holds in slots that are new.  Slots and frames are numbered
without end, as in rule 21.3."""

from trace_words import (
    AHEAD, CHANGE, FLOW, FLOW_LAST, FLOW_LINE, REFUSAL, VALUE)

NOBODY = 16
ONE_MORE = bytes(range(1, 256)) + b"\xff"       # of each number
ONE_LESS = b"\x00" + bytes(range(255))


class Kept:
    """The link after a call.  What is kept by slot begins with the first slot
    of the head frame and has T bytes."""

    def __init__(self, plan):
        self.plan = plan
        self.calls = 0              # 0 is the fresh link
        self.slot = 0               # the current one
        self.first = 0              # the head frame's first slot
        self.new = 0                # slots that the last tick brought
        self.lent = None            # the flow that has the current slot on loan
        self.owner = bytearray([NOBODY]) * plan.positions
        self.holdings = [bytearray(plan.positions) for _ in plan.flows]
        self.granted = [0] * len(plan.flows)    # since the beginning
        self.takes = {"G": self.grant, "C": self.credit, "T": self.tick,
                      "L": self.lend, "Z": self.reset, "B": self.word,
                      "F": self.go_on, "R": self.call, "X": self.call,
                      "W": self.call}

    def copy(self):
        other = Kept(self.plan)
        for name in ("calls", "slot", "first", "new", "lent"):
            setattr(other, name, getattr(self, name))
        other.owner[:] = self.owner
        other.granted[:] = self.granted
        other.holdings = [held[:] for held in self.holdings]
        return other

    def take(self, words):
        self.takes[words[0]](words)

    # ---- lines

    def call(self, words):
        self.calls += 1

    def grant(self, words):
        self.book(words)
        self.calls += 1

    def word(self, words):
        """Of a burst, whose line was counted."""
        if words[REFUSAL] == "0":
            self.book(words)

    def book(self, words):
        flow = int(words[FLOW])
        place = self.place(words)
        self.owner[place] = flow
        self.granted[flow] += 1
        self.hold(flow, place, ONE_MORE)

    def credit(self, words):
        self.hold(int(words[FLOW]), self.place(words), ONE_LESS)
        self.calls += 1

    def lend(self, words):
        self.lent = int(words[VALUE])
        self.hold(self.lent, self.slot - self.first, ONE_MORE)
        self.calls += 1

    def tick(self, words):
        change = words[CHANGE] == "1"
        self.calls += 1
        self.slot += 1
        self.lent = None
        if change:
            self.new = self.plan.frame_slots
            self.first += self.new
            self.owner = self.owner[self.new:] + bytearray(
                [NOBODY]) * self.new

    def go_on(self, words):
        """What a flow holds in the slots that are new."""
        flow = int(words[FLOW_LINE])
        if self.new:
            self.holdings[flow] = self.holdings[flow][self.new:] + bytearray(
                [int(words[FLOW_LAST])]) * self.new

    def reset(self, words):
        self.calls += 1
        self.new = 0
        self.owner[:] = bytearray([NOBODY]) * len(self.owner)

    # ---- slots

    def place(self, words):
        """Where the position of a line stands in the window."""
        return self.slot - self.first + int(words[AHEAD])

    def hold(self, flow, place, table):
        held = self.holdings[flow]
        held[place:] = held[place:].translate(table)

    @property
    def owners(self):
        """By slot; None where nobody is."""
        return [None if owner == NOBODY else owner for owner in self.owner]

    @property
    def current_position(self):
        """CP."""
        return self.slot % self.plan.positions

    @property
    def head_frame(self):
        return self.first // self.plan.frame_slots

    @property
    def positions(self):
        """The position of each slot of the window."""
        return [slot % self.plan.positions for slot in range(
            self.first, self.first + self.plan.positions)]

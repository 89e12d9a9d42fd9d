"""What a trace says of one flow: what it asked for and was granted, why it was
refused, and which of its cells are not given back."""

from bisect import insort
from collections import Counter

NO_CELL = 12                    # the refusal that speaks of cells
MISTAKES = frozenset((8, 9, 10, 13, 14, 15, 16, 24))    # calls made wrongly


class Refused:
    """Calls that were refused for one reason: how many, and the first."""

    def __init__(self, call, slot, cell=None):
        self.calls = 0
        self.call, self.slot = call, slot
        self.cell = cell        # the slot of the oldest cell held then


class FlowHealth:
    """A flow's counts so far.  A cell is out from its grant or lend on until
    a credit is taken for it, and the oldest slot's is given back first; so
    there are never more of them than the flow has cells."""

    def __init__(self, number, share, cells, window):
        self.number, self.share, self.cells = number, share, cells
        self.window = window
        self.requests = self.granted = self.lent = 0
        self.load = 0           # asked for in this frame, and before it past
                                # the share
        self.wait = self.wait_slot = None       # the longest, and for what
        self.out = []           # the slots of cells that are out, in order
        self.refused = Counter()                # requests, by number
        self.refused_credits = Counter()
        self.wrong = {}         # Refused by kind of call and number
        self.within = {}        # by number: within the share
        self.held_back = None   # 12 past the share, with a cell that came up
        self.ahead = None       # 12 with no slot of its cells over yet
        self.latest = None      # a cell that was late: slot, when credited

    def frame_change(self):
        self.load = max(0, self.load - self.share)

    def grant(self, wait, now):
        self.requests += 1
        self.load += 1
        self.granted += 1
        slot = now + wait
        insort(self.out, slot)
        if self.wait is None or wait > self.wait:
            self.wait, self.wait_slot = wait, slot

    def lend(self, now):
        self.lent += 1
        insort(self.out, now)

    def credit(self, now):
        slot = self.out.pop(0)
        if self.latest is None or now - slot > self.latest[1] - self.latest[0]:
            self.latest = slot, now

    # ---- refusals

    def refuse(self, number, call, now):
        """A request."""
        self.requests += 1
        self.load += 1
        self.refused[number] += 1
        cell = self.out[0] if self.out else None
        if number in MISTAKES:
            self.count(self.wrong, ("request", number), call, now)
        elif number == NO_CELL and len(self.out) == self.cells and cell >= now:
            self.ahead = self.one_more(self.ahead, call, now)
        elif self.load <= self.share:
            self.count(self.within, number, call, now, cell)
        elif number == NO_CELL and cell is not None and cell < now:
            self.held_back = self.one_more(self.held_back, call, now, cell)

    def refuse_credit(self, number, call, now):
        self.refused_credits[number] += 1
        self.count(self.wrong, ("credit", number), call, now)

    def one_more(self, refused, call, now, cell=None):
        refused = refused or Refused(call, now, cell)
        refused.calls += 1
        return refused

    def count(self, table, key, call, now, cell=None):
        table[key] = self.one_more(table.get(key), call, now, cell)

    # ---- at the end

    def overdue(self, now):
        """The slots of cells that are out, and came up more than a window
        ago."""
        return [slot for slot in self.out if now - slot > self.window]

    def returned_late(self):
        """The cell that was out longest of those that are back, if its slot
        had come up more than a window before: its slot, and when."""
        if self.latest and self.latest[1] - self.latest[0] > self.window:
            return self.latest
        return None

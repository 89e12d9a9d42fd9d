"""The link as the history of its calls.

Slots and frames are numbered without end.  There is no table of the window:
the granted and lent slots and the slots of the taken credits are written
down, and what a flow holds is counted from them.  Positions appear only where
a call comes in or an answer goes out.
"""

from itertools import accumulate


class Flow:
    """One flow of a fresh link (rule 4.2)."""

    def __init__(self, share):
        self.frame = 0              # IF, a frame number
        self.left = share           # C
        self.granted = 0            # slots, over all calls
        # Slots from which on a cell is held, and from which on it is back:
        # granted and lent slots, and those of taken credits, from the head
        # frame on.
        self.held_from = []
        self.back_from = []
        self.before = 0             # the former less the latter before it

    def fold(self, first):
        """Counts what lies before a slot into one number."""
        self.before += (sum(slot < first for slot in self.held_from)
                        - sum(slot < first for slot in self.back_from))
        self.held_from = [slot for slot in self.held_from if slot >= first]
        self.back_from = [slot for slot in self.back_from if slot >= first]


class Link:
    def __init__(self, plan):
        self.plan = plan
        self.ticks = 0              # slot `ticks` is current
        self.owner = {}             # granted slot -> flow
        self.marked = None          # the slot that was marked taken last
        self.last_lent = -1         # the flow lent to last, or the one before 0
        self.flows = [Flow(plan.share(flow)) for flow in range(plan.flows)]

    # ---- frames and slots of the window

    def frame_of(self, slot):
        return slot // self.plan.frame_slots

    def head_frame(self):
        return self.frame_of(self.ticks)

    def newest_frame(self):
        return self.head_frame() + self.plan.window_frames - 1

    def slots_of(self, frame):
        first = frame * self.plan.frame_slots
        return range(first, first + self.plan.frame_slots)

    def first_slot(self):
        """The first slot of the window."""
        return self.head_frame() * self.plan.frame_slots

    def slot_of(self, position):
        """Where the position comes next (rule 21.3)."""
        slot = self.ticks - self.ticks % self.plan.slots + position
        return slot if slot > self.ticks else slot + self.plan.slots

    def in_window(self, slot):
        """A position of HF not later than CP is a slot past the window."""
        return self.frame_of(slot) <= self.newest_frame()

    # ---- holdings

    def holdings(self, number):
        """What a flow holds at each slot of the window, in their order:
        granted and lent slots up to and including it, less taken credits up
        to and including it (rule 4.4)."""
        flow, first = self.flows[number], self.first_slot()
        change = [0] * self.plan.slots
        change[0] = flow.before
        for slot in flow.held_from:
            change[slot - first] += 1
        for slot in flow.back_from:
            change[slot - first] -= 1
        return list(accumulate(change))

    def from_slot(self, slot, holdings):
        """The holdings at a slot of the window and at every later one."""
        return holdings[slot - self.first_slot():]

"""How long BOOKED and SENT are, and whether SENT seems to be moved, or to
number its flows from 1 on."""

from check.words import plural

ENDED = "ended"                 # stands for a slot past the end of one
FEWEST = 2                      # streams that have to agree are more


class Ends:
    """The slots of both, and what stands past the other's end."""

    def __init__(self):
        self.booked = self.sent = 0     # slots
        self.left = 0                   # slots in which a stream left
        self.booked_alone = 0           # booked slots past the end of SENT
        self.left_alone = 0             # streams past the end of BOOKED

    def add(self, owner, flow):
        if owner != ENDED:
            self.booked += 1
            self.booked_alone += flow == ENDED and owner is not None
        if flow != ENDED:
            self.sent += 1
            self.left += flow is not None
            self.left_alone += owner == ENDED and flow is not None

    def lines(self):
        """A sentence where one ends before the other."""
        if not self.sent:
            yield "SENT is empty: of %s, %d booked, none can be compared: " \
                "look at whether the list was written" % (
                    plural(self.booked, "slot"), self.booked_alone)
        elif self.sent < self.booked:
            yield "SENT ends after slot %d and BOOKED after slot %d: %s, %d " \
                "booked, can't be compared" % (
                    self.sent, self.booked,
                    plural(self.booked - self.sent, "slot"),
                    self.booked_alone)
        elif self.booked < self.sent:
            yield "BOOKED ends after slot %d and SENT after slot %d: %s, %d " \
                "with a stream, can't be compared" % (
                    self.booked, self.sent,
                    plural(self.sent - self.booked, "slot"), self.left_alone)


class Shift:
    """Whether SENT seems to begin a slot too early or too late: moved by one
    slot it agrees throughout, with several streams, and as it stands it
    differs in several slots."""

    def __init__(self):
        self.slots = 0
        self.before = ENDED, ENDED      # the slot before
        self.agrees = {0: True, 2: True}    # by the slot of its first line
        self.streams = {0: 0, 2: 0}
        self.differing = 0

    def add(self, owner, flow):
        last_owner, last_flow = self.before
        self.differing += ENDED not in (owner, flow) and owner != flow
        if self.slots:
            if flow != ENDED:
                self.compare(0, last_owner, flow)
            if ENDED not in (owner, last_flow):
                self.compare(2, owner, last_flow)
        self.slots += 1
        self.before = owner, flow

    def compare(self, first, owner, flow):
        if owner != flow:
            self.agrees[first] = False
        elif flow is not None:
            self.streams[first] += 1

    def first_slot(self):
        """The slot that its first line seems to be, 0 or 2; or None."""
        if self.differing < 2:
            return None
        return next((first for first in (0, 2) if self.agrees[first]
                     and self.streams[first] > FEWEST), None)

    def lines(self):
        first = self.first_slot()
        if first is not None:
            yield "moved by one slot SENT agrees: is its first line slot " \
                "%d? it has to be slot 1" % first


class Numbering:
    """Whether SENT seems to number the flows from 1 on: each stream that left
    is then the one that was booked, and there are several."""

    def __init__(self):
        self.agrees = True
        self.streams = 0

    def add(self, owner, flow):
        if ENDED in (owner, flow) or owner is flow is None:
            return
        if None in (owner, flow) or flow != owner + 1:
            self.agrees = False
        self.streams += 1

    def from_one(self):
        return self.agrees and self.streams > FEWEST

    def lines(self):
        if self.from_one():
            yield "with each number one less SENT agrees: does it number the " \
                "flows from 1 on? flow 0 is the plan's first"

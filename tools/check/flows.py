"""What came of a flow's bookings, and the sentence that a person wants."""

from collections import Counter


def takers(flows):
    """By flow: the one that leaves in its slots alone, where there is one."""
    return {flow.in_place_of(): number for number, flow in flows.items()
            if flow.in_place_of() is not None}


class Flow:
    """Counts of a flow.  A tile that didn't leave in time and left in another
    slot is one elsewhere."""

    wrongly = "elsewhere"       # in words

    def __init__(self):
        self.booked = 0
        self.in_time = 0        # left in their slots, or before with --ahead
        self.elsewhere = 0      # left in other slots, or late
        self.last = 0           # the slot in which it left last
        self.missed = 0         # slots booked for it since then
        self.owners = Counter()     # of the slots in which it left elsewhere

    def leaves(self, slot):
        self.last = slot
        self.missed = 0

    @property
    def left(self):
        return self.in_time + self.elsewhere

    @property
    def never(self):
        """Tiles that never left: each that left stands for a booked one."""
        return max(self.booked - self.left, 0)

    def all_in_time(self):
        return self.in_time == self.booked and not self.elsewhere

    # ---- in words

    def time_words(self):
        return "its slot" if self.in_time == 1 else "their slots"

    def counts(self):
        """Booked, left in time, elsewhere and never, as words."""
        yield "%s booked" % (self.booked or "none")
        if self.all_in_time():
            yield "left in its slot" if self.booked == 1 else (
                "all left in their slots")
            return
        if not self.left:
            yield "none left"
            return
        if self.in_time:
            yield "%d left in %s" % (self.in_time, self.time_words())
        if self.elsewhere:
            yield "%d%s %s" % (self.elsewhere, "" if self.in_time else " left",
                               self.wrongly)
        if self.never:
            yield "%d never" % self.never

    def advice(self, taker=None):
        """Where to look; `taker` is the flow that leaves in this one's slots
        alone, or None."""
        if not self.left and self.booked:
            return "look at its cable"
        if self.in_place_of() is not None:
            return "all in flow %d's slots: look at which stream has which " \
                "number" % self.in_place_of()
        if taker is not None:
            return "flow %d leaves in its slots: look at which stream has " \
                "which number" % taker
        if not self.booked and self.left:
            return "look at who sends under this number, and whether its " \
                "requests were refused"
        if self.missed > 1 and self.missed == self.never:
            return "none left after slot %d: look at its cable" % self.last
        if self.never_in_its_own():
            return "none in a slot of its own: look at its board's plan, " \
                "and at which stream has this number"
        if self.left > self.booked:
            return "%d more than booked: look at what its board sends" % (
                self.left - self.booked)
        if self.never:
            return "look at whether its board had the tile by then"
        return ""

    def in_place_of(self):
        """The flow in whose slots alone it leaves, several times; or None."""
        if self.in_time or self.elsewhere < 2 or len(self.owners) != 1:
            return None
        return next(iter(self.owners))

    def never_in_its_own(self):
        """It leaves, but in others' slots alone."""
        return self.elsewhere and not self.in_time

    def sentence(self, number, explained=False, taker=None):
        """All of it; where something else explains it, it is not the flow."""
        advice = "" if explained else self.advice(taker)
        return "flow %d: %s%s" % (number, ", ".join(self.counts()),
                                  advice and ": " + advice)

"""The most that a flow held in any slot, by the lines of a trace (rule 26.10).

What is held in the slots of the window is one large number, so that one sum
changes all slots from a place on.
"""

BITS = 9                # of a slot
HIGHEST = 1 << BITS - 1


def in_each(slots):
    """A number with 1 in each of so many slots."""
    return sum(1 << BITS * slot for slot in range(slots))


class Slots:
    """The window's numbers: one in each slot from a place on, and a slot's
    highest bit in each."""

    def __init__(self, plan):
        slots = plan.positions
        self.one_from = [in_each(slots - place) << BITS * place
                         for place in range(slots)]
        self.highest = HIGHEST * in_each(slots)
        self.new = plan.frame_slots
        self.first_new = slots - self.new


class MostHeld:
    """Of a flow.  In each slot stands what is held there, and so much more
    that its highest bit is set where it is above the most so far.  A flow that
    held all of its cells is not followed any more."""

    def __init__(self, slots, cells):
        self.slots = slots
        self.one_from, self.highest = slots.one_from, slots.highest
        self.cells = cells
        self.most = 0
        self.number = (HIGHEST - 1) * slots.one_from[0]

    def more_from(self, place):
        """One more is held from a place on."""
        if self.most < self.cells:
            self.number += self.one_from[place]
            if self.number & self.highest:
                self.most += 1
                self.number -= self.one_from[0]

    def less_from(self, place):
        if self.most < self.cells:
            self.number -= self.one_from[place]

    def go_on(self, held):
        """The frame changes: so many are held in the slots that are new."""
        if self.most < self.cells:
            slots = self.slots
            self.number = (self.number >> BITS * slots.new) + (
                HIGHEST - 1 - self.most + held) * self.one_from[
                    slots.first_new]

    def held(self):
        """By slot."""
        number, found = self.number, []
        for _ in self.one_from:
            found.append(number % (1 << BITS) - (HIGHEST - 1 - self.most))
            number >>= BITS
        return found

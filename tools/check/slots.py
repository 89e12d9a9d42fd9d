"""The slots compared one by one: each stream leaves in its slot and in no
other."""

from check.ends import ENDED, Ends, Numbering, Shift
from check.flows import Flow, takers
from check.words import Faults, plural


def was_booked(flow):
    return ("nobody booked it" if flow is None
            else "it was booked for flow %d" % flow)


def has_left(flow):
    return "nothing left" if flow is None else "flow %d left" % flow


class SlotBySlot:
    """What is booked against what left."""

    good_word = "alike"

    def __init__(self):
        self.ends = Ends()
        self.shift = Shift()
        self.numbering = Numbering()
        self.faults = Faults()
        self.flows = {}
        self.agree = self.idle = 0

    def flow(self, number):
        if number not in self.flows:
            self.flows[number] = Flow()
        return self.flows[number]

    @staticmethod
    def reads(owners):
        """The owners, as they come."""
        return owners

    def add(self, slot, owner, flow):
        self.ends.add(owner, flow)
        self.shift.add(owner, flow)
        self.numbering.add(owner, flow)
        if ENDED in (owner, flow):
            return
        if owner is not None:
            self.come_up(slot, self.flow(owner), owner == flow)
        if owner == flow:
            self.agree += 1
            self.idle += flow is None
            return
        if flow is not None:
            self.flow(flow).elsewhere += 1
            self.flow(flow).owners[owner] += 1
            self.flow(flow).leaves(slot)
        self.faults.add(slot, "%s, and %s" % (was_booked(owner),
                                              has_left(flow)))

    @staticmethod
    def come_up(slot, owner, left):
        """A booked slot comes up, and its stream leaves in it or doesn't."""
        owner.booked += 1
        if left:
            owner.in_time += 1
            owner.leaves(slot)
        else:
            owner.missed += 1

    def end(self):
        pass

    # ---- what came of it

    def good(self):
        return not self.faults.count and self.ends.booked == self.ends.sent

    def agreeing(self):
        slots = max(self.ends.booked, self.ends.sent)
        return "%d of %s %s" % (self.agree, plural(slots, "slot"),
                                "agrees" if 1 in (self.agree, slots)
                                else "agree")

    def good_words(self):
        return "%s, %d with a stream and %d idle" % (
            self.agreeing(), self.agree - self.idle, self.idle)

    def bad_words(self):
        return "%s; BOOKED has %d and SENT has %d" % (
            self.agreeing(), self.ends.booked, self.ends.sent)

    def flow_lines(self, explained):
        taken_by = takers(self.flows)
        for number, flow in sorted(self.flows.items()):
            yield number, flow.sentence(number, explained,
                                        taken_by.get(number))

    def numbers(self):
        """For --json."""
        return {"agree": self.agree, "idle": self.idle}

    @staticmethod
    def flow_numbers(flow):
        return {"booked": flow.booked, "in_slot": flow.in_time,
                "elsewhere": flow.elsewhere, "never": flow.never}

"""Pairs by which a tile may leave ahead (rules 24.1 and 24.2): a lend, and at
once a credit of the flow that it was answered with, dated a slot that this
flow has booked, for a tile that was asked for in an earlier slot than the
current one.  That it came in an earlier slot too is said as a condition, and
whether it left stands in no call."""

from trace_words import AHEAD, FLOW, OWNER, POSITION, REFUSAL, VALUE


class Pairs:
    """Looks at the lines of a trace, one after the other."""

    def __init__(self):
        self.lent_to = None     # by the call before
        self.asked_in = {}      # by position: the slot of its last grant's
                                # request

    def grant(self, words, slot):
        """Of a request, or of a word of a burst."""
        self.asked_in[words[VALUE]] = slot

    def of_line(self, words, slot):
        """Of a credit that makes a pair with the lend before it: the booked
        slot, and the current one, in which its tile may leave.  Else None."""
        lent_to = self.lent_to
        self.lent_to = words[VALUE] if words[0] == "L" else None
        if words[0] in "GB" and words[REFUSAL] == "0":
            self.grant(words, slot)
        if (words[0] != "C" or lent_to is None
                or not words[FLOW] == words[OWNER] == lent_to
                or self.asked_in[words[POSITION]] == slot):
            return None
        return slot + int(words[AHEAD]), slot

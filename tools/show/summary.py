"""What a play comes to: grants and refusals by flow, the most that each flow
held, and the slots that came up."""

from collections import Counter

from lend_pairs import Pairs
from most_held import MostHeld, Slots
from trace_words import (
    AHEAD, CHANGE, CREDIT, FLOW, FLOW_LAST, FLOW_LINE, KIND, NO_CALL, NOBODY,
    REFUSAL, REQUEST, UNTOUCHED, VALUE)
from words import plural


class FlowSummary:
    def __init__(self, flow):
        self.flow = flow                    # of the plan
        self.granted = 0
        self.refused = Counter()            # requests, by number
        self.credits = 0                    # taken
        self.refused_credits = Counter()    # by number
        self.lent = 0                       # slots
        self.pairs = 0                      # of them, by which tiles may
                                            # leave ahead
        self.held = None                    # MostHeld


class Summary:
    """Counts the lines of a trace.  What counts a grant or a credit says where
    its slot stands in the window; `pair` is that of the last credit."""

    over = False

    def __init__(self, plan):
        self.plan = plan
        self.calls = self.slot = 0
        self.place = 0              # of the current slot in the window
        self.flows = [FlowSummary(flow) for flow in plan.flows]
        self.by_word = {str(flow.flow.number): flow for flow in self.flows}
        self.window = Slots(plan)
        for flow in self.flows:
            flow.held = MostHeld(self.window, flow.flow.cells)
        self.pairs = Pairs()
        self.pair = None
        self.lent_call = -1         # the last call that is a lend
        self.others = Counter()     # refusals of calls that no flow made
        self.untouched = 0          # a burst's words past the 16th
        self.booked = self.idle = 0
        self.lent = 0               # of the idle ones, but for slot 0
        self.changed = False        # the last tick had a frame change
        self.takes = {"G": self.grant, "C": self.credit, "T": self.tick,
                      "L": self.lend, "R": self.refuse, "X": self.no_call,
                      "B": self.word, "W": self.call, "Z": self.reset,
                      "F": self.go_on}

    def add(self, lines):
        takes = self.takes
        for line in lines:
            words = line.split(" ")
            takes[words[0]](words)

    # ---- lines

    def call(self, words):
        self.calls += 1

    def grant(self, words):
        flow = self.by_word[words[FLOW]]
        place = self.place + int(words[AHEAD])
        flow.held.more_from(place)
        self.pairs.grant(words, self.slot)
        flow.granted += 1
        self.calls += 1
        return place

    def credit(self, words):
        flow = self.by_word[words[FLOW]]
        place = self.place + int(words[AHEAD])
        flow.held.less_from(place)
        flow.credits += 1
        self.calls += 1
        self.pair = None
        if self.calls == self.lent_call + 1:
            self.pair = self.pairs.of_line(words, self.slot)
            flow.pairs += self.pair is not None
        return place

    def tick(self, words):
        self.come_up(words[VALUE], words[CHANGE])

    def come_up(self, owner, change):
        if owner == NOBODY:
            self.idle += 1
        else:
            self.booked += 1
        self.calls += 1
        self.slot += 1
        self.place += 1
        self.changed = change == "1"
        if self.changed:
            self.place -= self.plan.frame_slots

    def go_on(self, words):
        if self.changed:
            self.by_word[words[FLOW_LINE]].held.go_on(int(words[FLOW_LAST]))

    def lend(self, words):
        flow = self.by_word[words[VALUE]]
        flow.held.more_from(self.place)
        flow.lent += 1
        self.lent += self.slot > 0
        self.calls += 1
        self.pairs.of_line(words, self.slot)
        self.lent_call = self.calls

    def reset(self, words):
        self.calls += 1
        self.changed = False

    def word(self, words):
        """Of a burst, whose line was counted."""
        if words[REFUSAL] == "0":
            self.grant(words)
            self.calls -= 1
        elif words[REFUSAL] == UNTOUCHED:
            self.untouched += 1
        else:
            self.refusals_of(words, True)[int(words[REFUSAL])] += 1

    def refuse(self, words):
        self.refusals_of(words, words[KIND] == REQUEST)[
            int(words[REFUSAL])] += 1
        self.calls += 1

    def no_call(self, words):
        self.others[int(NO_CALL)] += 1
        self.calls += 1

    def refusals_of(self, words, asks):
        """Where a refusal is counted."""
        flow = self.by_word.get(words[FLOW])
        if flow is None or not asks and words[KIND] != CREDIT:
            return self.others
        return flow.refused if asks else flow.refused_credits

    # ---- in words

    def lines(self):
        for flow in self.flows:
            yield from self.flow_lines(flow)
        if self.others:
            yield "of no flow: %s refused%s" % (
                plural(sum(self.others.values()), "call"),
                by_number(self.others))
        if self.untouched:
            yield "%s of bursts not looked at" % plural(self.untouched,
                                                        "request")
        count = sum(flow.pairs for flow in self.flows)
        if count:
            yield "%s of a lend and a credit, by which %s may leave ahead" % (
                plural(count, "pair"), "a tile" if count == 1 else "tiles")
        lent = ", %d lent" % self.lent if self.lent else ""
        yield "%s came up: %d booked%s, %d idle" % (
            plural(self.slot, "slot"), self.booked, lent,
            self.idle - self.lent)

    @staticmethod
    def flow_lines(flow):
        asks = flow.granted + sum(flow.refused.values())
        lent = "; lent %s" % plural(flow.lent, "slot") if flow.lent else ""
        if flow.pairs:
            lent += ", %d of them in %s" % (
                flow.pairs, "a pair" if flow.pairs == 1 else "pairs")
        yield "flow %d: %s, %d granted, %d refused%s%s" % (
            flow.flow.number, plural(asks, "request"), flow.granted,
            sum(flow.refused.values()), by_number(flow.refused), lent)
        credits = flow.credits + sum(flow.refused_credits.values())
        yield "  %s, %d taken, %d refused%s; held at most %d of %s" % (
            plural(credits, "credit"), flow.credits,
            sum(flow.refused_credits.values()),
            by_number(flow.refused_credits), flow.held.most,
            plural(flow.flow.cells, "cell"))


def by_number(refused):
    """Refusals by their numbers, in brackets."""
    if not refused:
        return ""
    return " (%s)" % ", ".join("%d with %d" % (refused[number], number)
                               for number in sorted(refused))

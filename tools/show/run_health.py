"""What a trace says of a run: its lines (rules 26.2 to 26.9) are counted by
flow as they come, and none is kept.  Nothing is scheduled here."""

from collections import Counter

from flow_health import FlowHealth
from trace_words import (
    AHEAD, CHANGE, CREDIT, FLOW, KIND, LEND, NO_CALL, REFUSAL, REQUEST,
    UNTOUCHED, VALUE)



class RunHealth:
    over = False

    def __init__(self, plan):
        self.frame_slots = plan.frame_slots
        self.window = plan.positions
        self.flows = [FlowHealth(flow.number, flow.share, flow.cells,
                                 self.window) for flow in plan.flows]
        self.calls = self.slot = 0
        self.others = Counter()         # refusals of calls that no flow made
        self.first_other = {}           # by number: a call, and its kind
        self.takes = {"T": self.tick, "G": self.grant, "C": self.credit,
                      "R": self.refusal, "X": self.no_call, "L": self.lend,
                      "W": self.one_call, "Z": self.one_call,
                      "B": self.word, "F": self.skip}

    def frames(self):
        """That have begun."""
        return self.slot // self.frame_slots + 1

    def add(self, lines):
        takes = self.takes
        for line in lines:
            words = line.split()
            takes[words[0]](words)

    # ---- lines

    def tick(self, words):
        self.calls += 1
        self.slot += 1
        if words[CHANGE] == "1":
            for flow in self.flows:
                flow.frame_change()

    def grant(self, words):
        self.calls += 1
        self.flows[int(words[FLOW])].grant(int(words[AHEAD]), self.slot)

    def credit(self, words):
        self.calls += 1
        self.flows[int(words[FLOW])].credit(self.slot)

    def lend(self, words):
        self.calls += 1
        self.flows[int(words[VALUE])].lend(self.slot)

    def refusal(self, words):
        self.calls += 1
        number, kind, flow = int(words[REFUSAL]), words[KIND], int(words[FLOW])
        if kind not in (REQUEST, CREDIT) or flow >= len(self.flows):
            self.of_no_flow(number, "lend" if kind == LEND else "request")
        elif kind == REQUEST:
            self.flows[flow].refuse(number, self.calls, self.slot)
        else:
            self.flows[flow].refuse_credit(number, self.calls, self.slot)

    def word(self, words):
        """Of a burst, whose line was counted."""
        result, flow = words[REFUSAL], int(words[FLOW])
        if result == UNTOUCHED:
            return
        if flow >= len(self.flows):
            self.of_no_flow(int(result))
        elif result == "0":
            self.flows[flow].grant(int(words[AHEAD]), self.slot)
        else:
            self.flows[flow].refuse(int(result), self.calls, self.slot)

    def no_call(self, words):
        self.calls += 1
        self.of_no_flow(int(NO_CALL))

    def one_call(self, words):
        self.calls += 1

    def skip(self, words):
        pass

    def of_no_flow(self, number, kind="request"):
        self.others[number] += 1
        self.first_other.setdefault(number, (self.calls, kind))

"""A crossing from one link to the next, and the end of a stream's way: rules
27.1 to 27.6.

Tiles are kept, each with the slot in which it came, where the rules count
them: a queue for each flow of the in-link.  What the two links are asked is
written down, call by call, with the answers.
"""

from collections import deque

from simulator.credit import credit
from simulator.request import expected, request
from simulator.tick import tick

MOST = 255              # tiles of a flow that wait (rule 27.4)


class Crossing:
    def __init__(self, arriving, leaving, onward):
        self.arriving = arriving
        self.leaving = leaving
        self.onward = onward        # flow of the in-link -> of the out-link
        self.waiting = [deque() for _ in range(arriving.plan.flows)]
        self.lost = 0               # tiles that found MOST waiting
        self.calls = []             # of this slot: call and answer

    def word(self, flow):
        """Asks for the out-link's flow, in the current slot (rule 27.3)."""
        plan = self.leaving.plan
        return (plan.destination(flow) << 26 | flow << 20
                | expected(self.leaving, flow) << 10
                | self.leaving.ticks % plan.slots)

    def ask(self, flow):
        """For the first tile that waits; whether it is granted a slot."""
        out = self.onward[flow]
        letter, number = request(self.leaving, self.word(out))
        self.calls.append(("ask", flow, letter, number))
        if letter != "G":
            return False
        self.waiting[flow].popleft()
        self.calls.append(("credit", flow)
                          + credit(self.arriving, flow, number))
        return True

    def goes_on(self, flow):
        return self.onward.get(flow, 16) < self.leaving.plan.flows

    def come(self, flow):
        """A tile that has just come is the last of its flow that waits; it is
        asked for if it is the only one (rule 27.4)."""
        if len(self.waiting[flow]) == MOST:
            self.lost += 1
            return
        self.waiting[flow].append(self.arriving.ticks)
        if len(self.waiting[flow]) == 1:
            self.ask(flow)

    def serve(self, turn):
        """The board's part of a slot, after the ticks (rules 27.2 to 27.4)."""
        self.calls = []
        for flow in range(self.arriving.plan.flows):
            while self.goes_on(flow) and self.waiting[flow]:
                if not self.ask(flow):
                    break
        if turn != "-" and self.goes_on(turn):
            self.come(turn)
        return self.calls


def show(arriving, flow):
    """A tile that ends here was shown: its cell is free from the next slot on
    (rule 27.5)."""
    return credit(arriving, flow, (arriving.ticks + 1) % arriving.plan.slots)


def tick_all(links):
    """Links tick in step; the flow that comes up on each (rule 27.2)."""
    return [tick(link)[1] for link in links]

"""Whose turn it was, told from a listing alone, and the fairness of rule
21.10: between two lends to one flow, another that waits from the first of
them on is lent to.  A flow waits at a lend if it is in the mask and holds
fewer than its cells from the current slot on."""

NEXT = "turn: the flow after the last one"
NOT_ASKED = "turn: past flows that are not in the mask"
FULL = "turn: past flows that can't take the slot"
ROUND = "turn: past flow n - 1"
BACK = "turn: back to the last one"
FIRST = "turn: flow 0, on a fresh link or after a reset"
WAYS = NEXT, NOT_ASKED, FULL, ROUND, BACK, FIRST


class Turns:
    def __init__(self, flows):
        self.flows = flows
        self.begin()

    def begin(self):
        """A fresh link, or a granted reset."""
        self.last = None            # the flow lent to last
        # For each flow those lent to since it was lent to itself, as far as
        # it waited at each lend after them.
        self.since = [set() for _ in range(self.flows)]

    def lent(self, flow, waiting):
        """A lend to a flow, and the flows that wait.  Those that should have
        come before it."""
        wronged = [other for other in waiting
                   if other != flow and flow in self.since[other]]
        for other, since in enumerate(self.since):
            if other not in waiting:
                since.clear()
            since.add(flow)
        self.since[flow].clear()
        self.last = flow
        return wronged

    def ways(self, flow, mask):
        """What the turn had come to, looked at before it is noted."""
        if self.last is None:
            return [FIRST] if flow == 0 else []
        gap = (flow - self.last - 1) % self.flows
        passed = [(self.last + 1 + step) % self.flows for step in range(gap)]
        found = [BACK] if flow == self.last else [] if passed else [NEXT]
        if any(not mask >> other & 1 for other in passed):
            found.append(NOT_ASKED)
        if any(mask >> other & 1 for other in passed):
            found.append(FULL)
        if flow <= self.last:
            found.append(ROUND)
        return found

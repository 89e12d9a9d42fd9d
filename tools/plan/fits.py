"""What would fit: the largest share and the most cells of one more flow, and
the smallest N.  domeplan is asked about each number."""

import itertools

from plan import faults, program, table
from plan.ends import DONE, REFUSED
from plan.plans import Flow
from plan.report import Report, verdict

SHARES, CELLS, BUFFERS = range(1, 65), range(1, 256), range(1, 4096)
NODES = range(64)


def passing(values, made):
    """Those of some values whose plans pass."""
    answers = program.ask_all([made(value).question("plan")
                               for value in values],
                              program.or_refused(program.some_bytes))
    return [value for value, answer in zip(values, answers)
            if not isinstance(answer, program.Refused)]


def free_ends(plan):
    """Two nodes that no flow has."""
    taken = {(flow.source, flow.destination) for flow in plan.flows}
    return next(ends for ends in itertools.permutations(NODES, 2)
                if ends not in taken)


class Fits:
    def __init__(self, taken):
        self.taken = taken
        self.plan = plan = taken.plan
        self.buffers = passing(BUFFERS, plan.with_buffer)
        self.shares = self.cells = []
        self.together = False
        self.hindered = []              # why no flow can be added
        if taken.passes():
            self.look_for_a_flow(plan)

    def look_for_a_flow(self, plan):
        def added(share, cells):
            return plan.with_flow(Flow(share, cells, *free_ends(plan)))
        self.shares = passing(SHARES, lambda share: added(share, 1))
        self.cells = passing(CELLS, lambda cells: added(1, cells))
        if self.shares and self.cells:
            self.together = bool(passing([self.cells[-1]], lambda cells: added(
                self.shares[-1], cells)))
        if not self.shares:
            self.hindered = faults.of_plan(added(1, 1))

    # ---- in words

    def lines(self):
        if self.taken.passes():
            yield self.flow_line()
        yield self.buffer_line()

    def flow_line(self):
        if not self.shares:
            return "no flow can be added: with the smallest, share 1 and 1 " \
                "cell, the plan would be refused with %d: %s" % (
                    self.hindered[0].number, self.hindered[0].sentence())
        return "one more flow fits, with a share of up to %d and up to %d " \
            "%s%s" % (self.shares[-1], self.cells[-1],
                      "cell" if self.cells[-1] == 1 else "cells",
                      "" if self.together else ", but not with both")

    def buffer_line(self):
        if not self.buffers:
            return "with no N the plan passes: N is not all that is wrong"
        return "the smallest N with which it passes is %d, and N is %d" % (
            self.buffers[0], self.plan.buffer)

    def report(self):
        status = DONE if self.taken.passes() else REFUSED
        numbers = verdict(status, refusal=self.taken.refusal, faults=[
            fault.as_object(self.plan) for fault in self.taken.faults],
            plan=table.object_of(self.plan),
            largest_share=max(self.shares, default=0),
            most_cells=max(self.cells, default=0),
            smallest_N=min(self.buffers, default=None))
        return Report(self.lines(), numbers, self.taken.lines, status)

"""Lends in slot after slot, across frame changes: several in one slot, at
booked slots too, and cells that come back some slots later."""

from generator import good_plans
from generator.call_file import CallFile
from generator.lends import some_lend
from simulator.records import ALLCALLS


class Cells:
    """Cells that were taken, and when their credits are sent."""

    def __init__(self, dice, file):
        self.dice = dice
        self.file = file
        self.stay = dice.pick([1, 3, 8, file.slots])
        self.due = []               # (slot at which the credit is sent, flow)

    def taken(self, flow):
        """A cell of this flow, or of none."""
        if flow is not None:
            sent = self.file.now() + self.dice.below(self.stay + 1)
            self.due.append((sent, flow))

    def give_back(self):
        now = self.file.now()
        for _, flow in [cell for cell in self.due if cell[0] <= now]:
            ahead = self.dice.pick([1, 1, 2, self.stay])
            self.file.give(flow, self.file.date(now + ahead))
        self.due = [cell for cell in self.due if cell[0] > now]


def one_slot(dice, file, cells, asks):
    """Lends and requests in any order, then the credits that are due."""
    for _ in range(dice.pick([0, 1, 1, 1, 2, 4])):
        if dice.chance(asks):
            flow = dice.below(file.flows)
            if file.ask(flow) is not None:
                cells.taken(flow)
        cells.taken(some_lend(dice, file))
    cells.give_back()
    file.tick()


def fill(dice, file, calls):
    cells = Cells(dice, file)
    asks = dice.pick([0, 10, 30, 60])
    while file.calls() < calls:
        one_slot(dice, file, cells, asks)
    return file


def any_frames(dice, calls):
    def few(share):
        return dice.between(1, 3 + share)
    return fill(dice, CallFile(good_plans.any_plan(dice, few), ALLCALLS),
                calls)


def small_frames(dice, calls):
    return fill(dice, CallFile(good_plans.small_plan(dice), ALLCALLS), calls)


def sixteen_flows(dice, calls):
    """A full frame of 64 slots, in which most slots are booked."""
    file = CallFile(good_plans.dense_plan(dice), ALLCALLS)
    for flow in range(file.flows):
        for _ in range(dice.between(0, 6)):
            file.ask(flow)
    return fill(dice, file, calls)

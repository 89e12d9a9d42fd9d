"""Lends where few cells are held early or late: credits dated well after
their slot, and all cells held at the current slot only, or later only."""

from generator import good_plans
from generator.call_file import CallFile
from generator.lends import some_lend, some_mask
from simulator.records import ALLCALLS


def file_with_few_cells(dice):
    def few(share):
        return dice.between(1, 1 + min(2, share))
    return CallFile(good_plans.any_plan(dice, few), ALLCALLS)


def mask_with(dice, file, flow):
    """The flow alone, or with others."""
    return 1 << flow | dice.pick([0, 0, some_mask(dice, file)])


def late_credits(dice, calls):
    """Grants and lends whose credits are dated up to a window later; the flow
    is lent to before that date and after it."""
    file = file_with_few_cells(dice)
    while file.calls() < calls:
        flow = dice.below(file.flows)
        for _ in range(dice.between(0, 2)):
            file.ask(flow)
        file.lend(mask_with(dice, file, flow))
        late = dice.pick([1, 1, 2, dice.between(1, file.slots)])
        file.give(flow, file.date(file.now() + late))
        file.lend(mask_with(dice, file, flow))
        for _ in range(dice.pick([0, 1, 1, late, file.plan.frame_slots])):
            file.tick()
            if dice.chance(20):
                file.lend(mask_with(dice, file, flow))
        file.lend(mask_with(dice, file, flow))
        if dice.chance(20):
            some_lend(dice, file)
    return file


def full_later(dice, calls):
    """A flow asks until it is refused, so that its cells are all held later
    on; lends then come before and after credits at the slots granted."""
    file = file_with_few_cells(dice)
    while file.calls() < calls:
        flow = dice.below(file.flows)
        granted = []
        while not granted or granted[-1] is not None:
            granted.append(file.ask(flow))
        file.lend(1 << flow)
        some_lend(dice, file)
        for slot in granted[:-1]:
            if dice.chance(80):
                file.give(flow, file.date(slot + dice.pick([0, 0, 1, 5])))
                file.lend(mask_with(dice, file, flow))
        if dice.chance(60):
            file.give(flow, file.later_slot(dice))
        for _ in range(dice.pick([0, 1, 2, file.plan.frame_slots])):
            file.tick()
            if dice.chance(30):
                some_lend(dice, file)
    return file

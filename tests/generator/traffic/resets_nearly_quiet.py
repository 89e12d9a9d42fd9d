"""One booking, or one cell, is all that stands in the way of a reset, which is
tried in each slot until it is granted."""

from generator import good_plans
from generator.call_file import CallFile
from generator.resets import (
    in_the_same_slot, return_cells, wait_until_quiet)
from simulator.records import ALLCALLS


def slot_to_book(dice, file):
    """The last slot of the window in most cases, or another one."""
    return dice.pick([file.last_slot(), file.last_slot(),
                      file.later_slot(dice)])


def one_booking(dice, file):
    """Its cell comes back with its slot, after it, or not yet."""
    flow = dice.below(file.flows)
    before = slot_to_book(dice, file) - 1
    slot = file.ask(flow, before % file.slots)
    if slot is not None:
        later = dice.pick([0, 0, 0, 1, dice.below(file.slots)])
        if dice.chance(80):
            file.give(flow, file.date(slot + later))


def one_lend(dice, file):
    """Its cell comes back with the next slot, later, or not yet."""
    flow = dice.below(file.flows)
    if file.lend(1 << flow) is not None and dice.chance(80):
        file.give(flow, dice.pick([file.now() + 1, file.later_slot(dice),
                                   file.last_slot()]))


def nearly_quiet(dice, calls):
    make = dice.pick([good_plans.any_plan, good_plans.small_plan,
                      good_plans.small_plan])
    file = CallFile(make(dice), ALLCALLS)
    while file.calls() < calls:
        for _ in range(dice.pick([0, 1, 3])):
            file.tick()
        dice.pick([one_booking, one_booking, one_lend])(dice, file)
        for _ in range(dice.below(file.slots)):
            file.reset()
            file.tick()
        return_cells(dice, file, 100)
        wait_until_quiet(dice, file, 100)
        file.reset()
        in_the_same_slot(dice, file)
    return file

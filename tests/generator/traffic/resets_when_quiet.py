"""Some traffic, then the cells come back and the link falls quiet: resets on
the way, in any slot of a frame, and calls in the same slot."""

from generator import good_plans
from generator.call_file import CallFile
from generator.lends import some_lend
from generator.resets import (
    in_the_same_slot, return_cells, some_reset, wait_until_quiet)
from simulator.records import ALLCALLS


def some_traffic(dice, file):
    """Requests of some flows, lends and slots that go by."""
    for _ in range(dice.between(1, 5)):
        flow = dice.below(file.flows)
        late = dice.chance(20)
        for _ in range(dice.between(1, 4)):
            file.ask(flow, dice.below(file.slots) if late else None)
        if dice.chance(30):
            some_lend(dice, file)
        for _ in range(dice.pick([0, 0, 1, 2, file.plan.frame_slots])):
            file.tick()


def to_a_border(dice, file):
    """On to the first or the last slot of a frame."""
    offset = dice.pick([0, file.plan.frame_slots - 1])
    while file.now() % file.plan.frame_slots != offset:
        file.tick()


def fill(dice, file, calls):
    tries = dice.pick([5, 30, 100])
    borders = dice.pick([10, 50])
    while file.calls() < calls:
        some_traffic(dice, file)
        return_cells(dice, file, tries)
        wait_until_quiet(dice, file, tries)
        if dice.chance(borders):
            to_a_border(dice, file)
        some_reset(dice, file)
        in_the_same_slot(dice, file)
    return file


def any_frames(dice, calls):
    def few(share):
        return dice.between(1, 3 + share)
    return fill(dice, CallFile(good_plans.any_plan(dice, few), ALLCALLS),
                calls)


def small_frames(dice, calls):
    return fill(dice, CallFile(good_plans.small_plan(dice), ALLCALLS), calls)


def sixteen_flows(dice, calls):
    return fill(dice, CallFile(good_plans.dense_plan(dice), ALLCALLS), calls)

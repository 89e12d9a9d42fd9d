"""Lends in turn whose cells come back at once, and resets between them: after
a granted one the next lend looks from flow 0 again."""

from generator import good_plans
from generator.call_file import CallFile
from generator.lends import some_lend, some_mask
from simulator.records import ALLCALLS


def some_turns(dice, file):
    for _ in range(dice.between(1, 4)):
        mask = dice.pick([(1 << file.flows) - 1, some_mask(dice, file)])
        flow = file.lend(mask)
        if flow is not None and dice.chance(95):
            file.give(flow, file.date(file.now() + 1))
        if dice.chance(10):
            file.reset()            # 23: the lent cell is held now
        file.tick()


def between_lends(dice, calls):
    file = CallFile(good_plans.any_plan(dice), ALLCALLS)
    while file.calls() < calls:
        some_turns(dice, file)
        if dice.chance(60):
            file.reset()
        if dice.chance(10):
            some_lend(dice, file)
    return file

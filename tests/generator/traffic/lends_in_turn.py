"""Long runs of lends, one in each slot, over masks that change now and then;
most cells come back at once, so that several flows can take the slot."""

from generator import good_plans
from generator.call_file import CallFile
from generator.lends import odd_lend, some_mask
from simulator.records import ALLCALLS


def all_but(dice, file):
    """Every flow but one, and every flow where there is one alone."""
    every = (1 << file.flows) - 1
    return every & ~(1 << dice.below(file.flows)) or every


def next_mask(dice, file, mask):
    """The same mask for some slots, then another one."""
    every = (1 << file.flows) - 1
    if mask and dice.chance(70):
        return mask
    return dice.pick([every, every, all_but(dice, file),
                      some_mask(dice, file), 1 << dice.below(file.flows)])


def one_slot(dice, file, mask, returned):
    """A lend, its cell given back in some slots of a hundred, and a tick."""
    flow = file.lend(mask)
    if flow is not None and dice.chance(returned):
        file.give(flow, file.date(file.now() + 1))
    if dice.chance(5):
        odd_lend(dice, file)
    if dice.chance(5):
        file.lend(mask)
    if dice.chance(4):
        file.ask(dice.below(file.flows))
    file.tick()


def fill(dice, file, calls):
    returned = dice.pick([70, 90, 98])
    mask = 0
    while file.calls() < calls:
        mask = next_mask(dice, file, mask)
        one_slot(dice, file, mask, returned)
        if dice.chance(10):
            file.give(dice.below(file.flows), file.later_slot(dice))
    return file


def any_frames(dice, calls):
    def few(share):
        return dice.between(1, 2 + share)
    return fill(dice, CallFile(good_plans.any_plan(dice, few), ALLCALLS),
                calls)


def sixteen_flows(dice, calls):
    return fill(dice, CallFile(good_plans.dense_plan(dice), ALLCALLS), calls)

"""Resets among any calls, and random bytes of which many are resets."""

from generator import good_plans
from generator.call_file import CallFile
from generator.lends import some_lend
from generator.odd_calls import odd_call
from generator.resets import (
    give_back, in_the_same_slot, return_cells, some_reset)
from simulator.records import ALLCALLS


def mixed(dice, calls):
    """Any calls, with weights of their own in each file."""
    file = CallFile(good_plans.any_plan(dice), ALLCALLS)
    acts = [act for act in range(8) for _ in range(dice.between(1, 9))]
    while file.calls() < calls:
        act = dice.pick(acts)
        flow = dice.below(file.flows)
        if act == 0:
            file.ask(flow, departure=dice.below(file.slots))
        elif act == 1:
            for _ in range(dice.between(1, 4)):
                file.ask(flow)
        elif act == 2:
            give_back(file, flow)
        elif act == 3:
            for _ in range(dice.between(1, 6)):
                file.tick()
        elif act == 4:
            odd_call(dice, file)
        elif act == 5:
            some_lend(dice, file)
        elif act == 6:
            return_cells(dice, file, 10)
        else:
            some_reset(dice, file)
            in_the_same_slot(dice, file)
    return file


def random_records(dice, calls):
    """Random bytes after a good plan, many of them resets and ticks."""
    file = CallFile(good_plans.any_plan(dice), ALLCALLS)
    known = dice.pick([50, 90])
    for _ in range(calls):
        record = bytearray(dice.data(5))
        if dice.chance(known):
            record[0] = dice.pick([1, 2, 3, 3, 4, 5, 5])
        if dice.chance(known):
            record[1:] = dice.pick([bytes(4), bytes([*record[1:3], 0, 0])])
        file.record(bytes(record))
    return file


def short_file(dice, calls):
    """A few calls; the last record may be cut off."""
    file = mixed(dice, calls)
    file.reset()
    if dice.chance(30):
        file.last_bytes(bytes([5, 0, 0, 0])[:dice.between(1, 4)])
    return file

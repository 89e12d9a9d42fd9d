"""Lends among any calls: most of them well formed, most of them odd, or
random bytes; and short files that end in lends."""

from generator import good_plans
from generator.call_file import CallFile
from generator.lends import end_in_lends, odd_lend, some_lend
from generator.odd_calls import odd_call
from simulator.records import ALLCALLS


def mixed(dice, calls):
    """Any calls, with weights of their own in each file."""
    file = CallFile(good_plans.any_plan(dice), ALLCALLS)
    acts = [act for act in range(7) for _ in range(dice.between(1, 9))]
    while file.calls() < calls:
        act = dice.pick(acts)
        flow = dice.below(file.flows)
        if act == 0:
            file.ask(flow, departure=dice.below(file.slots))
        elif act == 1:
            for _ in range(dice.between(2, 12)):
                file.ask(flow)
        elif act == 2:
            file.give(flow, file.later_slot(dice))
        elif act == 3:
            for _ in range(dice.between(1, 6)):
                file.tick()
        elif act == 4:
            odd_call(dice, file)
        elif act == 5:
            odd_lend(dice, file)
        else:
            for _ in range(dice.between(1, 3)):
                some_lend(dice, file)
    return file


def random_records(dice, calls):
    """Random bytes after a good plan, many of them lends."""
    file = CallFile(good_plans.any_plan(dice), ALLCALLS)
    known = dice.pick([50, 90])
    for _ in range(calls):
        record = bytearray(dice.data(5))
        if dice.chance(known):
            record[0] = dice.pick([1, 2, 3, 4, 4, 4])
        if dice.chance(known):
            record[3:] = bytes(2)
        if dice.chance(known):
            record[2] = 0
        file.record(bytes(record))
    return file


def short_file(dice, calls):
    """A few calls, then lends; the last record may be cut off."""
    file = end_in_lends(dice, mixed(dice, calls))
    if dice.chance(30):
        file.last_bytes(bytes([4, 1, 0, 0])[:dice.between(1, 4)])
    return file

"""Words with quantum numbers of all kinds, among any other calls."""

from generator import good_plans
from generator.call_file import CallFile
from generator.departures import departure
from generator.numbers import number, weighted
from generator.odd_calls import odd_call


def some_word(dice, file, flow, kinds, wrong):
    """A wrong number in so many parts of a hundred; any departure, or that of
    a tile that has come."""
    named = departure(dice, file) if dice.chance(30) else None
    if dice.chance(wrong):
        file.ask(flow, named, number(dice, file, flow, kinds))
    else:
        file.ask(flow, named)


def fill(dice, file, calls):
    """Requests, credits and ticks, with weights of their own in each file."""
    kinds = weighted(dice)
    wrong = dice.pick([5, 20, 50])
    acts = [act for act in range(4) for _ in range(dice.between(1, 6))]
    while file.calls() < calls:
        act = dice.pick(acts)
        flow = dice.below(file.flows)
        if act <= 1:
            for _ in range(dice.between(1, 5)):
                some_word(dice, file, flow, kinds, wrong)
        elif act == 2:
            for _ in range(dice.pick([1, 1, 2, file.plan.frame_slots])):
                came = file.tick()
                if came is not None and dice.chance(80):
                    file.give(came, file.later_slot(dice))
        elif dice.chance(30):
            odd_call(dice, file)
        else:
            file.give(flow, file.later_slot(dice))
    return file


def any_frames(dice, calls):
    return fill(dice, CallFile(good_plans.any_plan(dice)), calls)


def small_frames(dice, calls):
    return fill(dice, CallFile(good_plans.small_plan(dice)), calls)


def dense(dice, calls):
    return fill(dice, CallFile(good_plans.dense_plan(dice)), calls)

"""Words with departures of all kinds, among any other calls."""

from generator import good_plans
from generator.call_file import CallFile
from generator.departures import departure, weighted
from generator.odd_calls import odd_call


def fill(dice, file, calls):
    """Requests, credits and ticks, with weights of their own in each file."""
    kinds = weighted(dice)
    acts = [act for act in range(5) for _ in range(dice.between(1, 6))]
    while file.calls() < calls:
        act = dice.pick(acts)
        flow = dice.below(file.flows)
        if act <= 1:
            for _ in range(dice.between(1, 4)):
                file.ask(flow, departure(dice, file, kinds))
        elif act == 2:
            file.give(flow, file.later_slot(dice))
        elif act == 3:
            for _ in range(dice.pick([1, 1, 2, file.plan.frame_slots])):
                came = file.tick()
                if came is not None and dice.chance(70):
                    file.give(came, file.later_slot(dice))
        elif dice.chance(20):
            odd_call(dice, file)
        else:
            file.ask(flow)
    return file


def any_frames(dice, calls):
    return fill(dice, CallFile(good_plans.any_plan(dice)), calls)


def small_frames(dice, calls):
    return fill(dice, CallFile(good_plans.small_plan(dice)), calls)


def few_cells(dice, calls):
    """All cells are often held at a later position, but not before it."""
    def few(share):
        return dice.between(1, 2)
    return fill(dice, CallFile(good_plans.any_plan(dice, few)), calls)


def dense(dice, calls):
    return fill(dice, CallFile(good_plans.dense_plan(dice)), calls)

"""Mostly ticks: the window goes round again and again, with few calls in
between."""

from generator import good_plans
from generator.call_file import CallFile


def mostly_ticks(dice, calls):
    file = CallFile(good_plans.any_plan(dice))
    while file.calls() < calls:
        flow = dice.below(file.flows)
        for _ in range(dice.between(0, 3)):
            file.ask(flow)
        for _ in range(dice.below(2 * file.plan.frame_slots)):
            came = file.tick()
            if came is not None:
                file.give(came, file.later_slot(dice))
    return file

"""Mixed calls on any plan: most of them well formed, or most of them odd."""

from generator import good_plans
from generator.call_file import CallFile
from generator.odd_calls import odd_call


def mixed(dice, calls):
    """Any calls, most of them well formed."""
    file = CallFile(good_plans.any_plan(dice))
    weights = [dice.between(1, 9) for _ in range(5)]
    acts = [act for act in range(5) for _ in range(weights[act])]
    while file.calls() < calls:
        act = dice.pick(acts)
        flow = dice.below(file.flows)
        if act == 0:
            file.ask(flow, departure=dice.below(file.slots))
        elif act == 1:
            for _ in range(dice.between(2, 12)):
                file.ask(flow)
        elif act == 2:
            file.give(flow, file.later_slot(dice))
        elif act == 3:
            for _ in range(dice.between(1, 6)):
                file.tick()
        else:
            odd_call(dice, file)
    return file


def mostly_odd(dice, calls):
    """Mostly odd words and credits, on a link that goes on working."""
    file = CallFile(good_plans.any_plan(dice))
    while file.calls() < calls:
        for _ in range(dice.between(1, 4)):
            odd_call(dice, file)
        if dice.chance(50):
            file.ask(dice.below(file.flows), departure=dice.below(file.slots))
        if dice.chance(30):
            file.tick()
    return file

"""Bursts among any calls, of one flow after the other, and around resets."""

from generator import good_plans
from generator.bursts import broken_burst, cut_burst, of_one_flow, some_burst
from generator.call_file import CallFile
from generator.lends import some_lend
from generator.odd_calls import odd_call
from generator.resets import return_cells, some_reset, wait_until_quiet
from simulator.records import ALLCALLS


def mixed(dice, calls):
    """Any calls, with weights of their own in each file."""
    file = CallFile(good_plans.any_plan(dice), ALLCALLS)
    acts = [act for act in range(7) for _ in range(dice.between(1, 9))]
    while file.calls() < calls:
        act = dice.pick(acts)
        flow = dice.below(file.flows)
        if act == 0:
            file.ask(flow)
        elif act == 1:
            file.give(flow, file.later_slot(dice))
        elif act == 2:
            for _ in range(dice.between(1, 6)):
                file.tick()
        elif act == 3:
            some_lend(dice, file)
        elif act == 4:
            odd_call(dice, file)
        elif act == 5 and dice.chance(30):
            broken_burst(dice, file)
        else:
            some_burst(dice, file)
    return file


def credited(dice, calls):
    """Bursts, and credits of what was granted, so that tables fill."""
    file = CallFile(good_plans.any_plan(dice), ALLCALLS)
    while file.calls() < calls:
        for _ in range(dice.between(1, 3)):
            some_burst(dice, file)
        for flow, grants in enumerate(file.grants):
            while grants and dice.chance(60):
                file.give(flow, file.date(grants.pop(0) + 1))
        for _ in range(dice.between(1, file.plan.frame_slots)):
            file.tick()
    return file


def one_flow(dice, calls):
    """A flow's burst, then ticks."""
    file = CallFile(good_plans.any_plan(dice), ALLCALLS)
    while file.calls() < calls:
        file.burst(of_one_flow(dice, file))
        for _ in range(dice.below(file.plan.frame_slots + 1)):
            file.tick()
    return file


def around_resets(dice, calls):
    """Bursts on links that fall quiet, and right after a granted reset."""
    file = CallFile(good_plans.any_plan(dice), ALLCALLS)
    while file.calls() < calls:
        some_burst(dice, file)
        return_cells(dice, file, 5)
        wait_until_quiet(dice, file, 5)
        some_reset(dice, file)
        some_burst(dice, file)
        some_reset(dice, file)
    return file


def cut_off(dice, calls):
    """A few calls; the last burst is cut off."""
    file = mixed(dice, calls)
    cut_burst(dice, file)
    return file

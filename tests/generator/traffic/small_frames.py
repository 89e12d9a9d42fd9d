"""Small frames: F of 1 to 3 and windows of 2 to 8 frames, any mix of calls."""

from generator import good_plans
from generator.call_file import CallFile
from generator.odd_calls import odd_call


def small_frames(dice, calls):
    file = CallFile(good_plans.small_plan(dice))
    asks = dice.between(20, 60)
    gives = dice.between(5, 30)
    odds = dice.pick([0, 0, 5])
    while file.calls() < calls:
        lot = dice.below(100)
        if lot < asks:
            file.ask(dice.below(file.flows))
        elif lot < asks + gives:
            file.give(dice.below(file.flows), file.later_slot(dice))
        elif lot < asks + gives + odds:
            odd_call(dice, file)
        else:
            file.tick()
    return file

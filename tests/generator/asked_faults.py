"""Plans as numbers, for whoever asks which limits they break: none, one or
many at once, and entries that are alike."""

from generator import asked_plans, plan_faults

VALUES = (0, 1, 2, 8, 9, 63, 64, 65, 255, 256, 257, 4095, 4096, 65535, 65536,
          asked_plans.NINES)


def some_faults(dice):
    """Up to five faults of any tests, the later test's first."""
    numbers = sorted((dice.between(2, 7) for _ in range(dice.between(1, 5))),
                     reverse=True)
    return asked_plans.changed(dice, [dice.pick(asked_plans.FAULTS[number])
                                      for number in numbers])


def alike(dice):
    """Flows of few nodes, so that many have the same two."""
    plan = asked_plans.good(dice)
    plan_faults.more_flows(plan, dice.between(2, 18))
    nodes = [dice.pick([dice.below(64), 64]) for _ in range(3)]
    for entry in plan.entries:
        entry[2:] = [dice.pick(nodes), dice.pick(nodes)]
    return plan


def strewn(dice):
    """Every number anywhere, often at a limit or beside it."""
    plan = asked_plans.good(dice)
    plan.frame_slots = dice.pick([*VALUES, dice.below(70)])
    plan.window_frames = dice.pick([*VALUES, dice.below(10)])
    plan.buffer = dice.pick([*VALUES, dice.below(5000)])
    for entry in plan.entries:
        for place in range(4):
            if dice.chance(40):
                entry[place] = dice.pick(VALUES)
    return plan


def numbers(dice):
    make = dice.pick([asked_plans.any_plan, some_faults, some_faults, alike,
                      strewn])
    return asked_plans.numbers(make(dice))

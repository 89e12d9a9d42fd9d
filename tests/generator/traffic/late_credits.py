"""Late credits: few cells, and credits dated well after their slot."""

from generator import good_plans
from generator.call_file import CallFile


def late_credits(dice, calls):
    def few(share):
        return dice.between(1, 2 + share)
    file = CallFile(good_plans.any_plan(dice, cells=few))
    out = [[] for _ in range(file.flows)]
    while file.calls() < calls:
        flow = dice.below(file.flows)
        for _ in range(dice.between(1, 3)):
            slot = file.ask(flow)
            if slot is not None:
                out[flow].append(slot)
        if dice.chance(60) and out[flow]:
            slot = out[flow].pop(dice.below(len(out[flow])))
            late = dice.between(0, file.slots)
            if file.give(flow, file.date(slot + late)) and dice.chance(30):
                # Once more, dated earlier: may be taken only if the flow
                # still holds a cell at every later slot.
                file.give(flow, file.later_slot(dice))
        if dice.chance(10):
            file.give(flow, file.later_slot(dice))
        for _ in range(dice.pick([0, 0, 1, 2, file.plan.frame_slots])):
            file.tick()
    return file

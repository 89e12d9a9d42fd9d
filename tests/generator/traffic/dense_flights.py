"""Dense flights: full frames, by sixteen flows or by one."""

from generator import good_plans
from generator.call_file import CallFile


def sixteen_flows(dice, calls):
    """Many words at once from 16 flows into a full frame; cells come back
    late."""
    file = CallFile(good_plans.dense_plan(dice))
    delay = dice.pick([0, 5, 40, 130])
    waiting = []                # (slot at which the credit is sent, flow)
    while file.calls() < calls:
        flow = dice.below(file.flows)
        for _ in range(dice.between(1, 8)):
            file.ask(flow)
        steps = dice.pick([0, 0, 1, 2, 4, 9])
        if dice.chance(2):
            steps = 64
        for _ in range(steps):
            came = file.tick()
            if came is not None:
                waiting.append((file.now() + dice.between(0, delay), came))
        while waiting and waiting[0][0] <= file.now():
            _, flow = waiting.pop(0)
            file.give(flow, file.date(file.now() + dice.between(1, 30)))
    return file


def one_flow(dice, calls):
    """One flow with the whole frame; holdings up to 255."""
    frame_slots, window_frames = dice.pick(
        [(64, 4), (32, 8), (51, 5), (64, 3)])
    cells = dice.pick([255, 255, 254, 128, 200])
    file = CallFile(good_plans.Draft(frame_slots, window_frames,
                                     [[frame_slots, cells, 1, 2]]))
    held = 0
    while file.calls() < calls:
        for _ in range(dice.pick([1, 20, 300])):
            if file.ask(0) is None:
                break
        for _ in range(dice.pick([1, 5, 64])):
            held += file.tick() is not None
        back = dice.between(0, min(held, 40))
        for _ in range(back):
            held -= file.give(0, file.date(file.now() + dice.between(1, 80)))
    return file

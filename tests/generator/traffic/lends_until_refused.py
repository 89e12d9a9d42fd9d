"""Streams that ask until refused in every frame while slots are lent, to
them too; with room when they ask, in most files."""

from generator import good_plans
from generator.call_file import CallFile
from generator.lends import some_lend
from generator.traffic.asking_until_refused import Stream, often_small_frame
from simulator.records import ALLCALLS


def plan_with_room(dice):
    """Slots that nobody's share needs; cells for all grants that a credit can
    wait for, and for some lends."""
    frame_slots, window_frames = often_small_frame(dice)
    flows = dice.between(1, min(6, frame_slots))
    spare = dice.pick([1, 3, 20])
    plan = good_plans.draft(dice, frame_slots, window_frames, flows,
                            lambda share: share * (window_frames + 1) + spare)
    plan.frame_slots = min(64, 256 // window_frames,
                           frame_slots + dice.between(0, 2 * frame_slots))
    return plan


def lend_and_return(dice, file):
    """A lent cell comes back with the next slot, or never."""
    flow = some_lend(dice, file)
    if flow is not None and dice.chance(90):
        file.give(flow, file.now() + 1)


def one_frame(dice, file, streams, lends):
    """Each stream asks until refused at some slot of the frame."""
    when = [dice.below(file.plan.frame_slots) for _ in streams]
    for offset in range(file.plan.frame_slots):
        for stream, slot in zip(streams, when):
            if offset == slot:
                stream.ask_until_refused()
        if dice.chance(lends):
            lend_and_return(dice, file)
        file.tick()


def until_refused(dice, calls):
    file = CallFile(plan_with_room(dice), ALLCALLS)
    streams = [Stream(file, flow, 1) for flow in range(file.flows)]
    lends = dice.pick([20, 50, 90])
    frames = 0
    while file.calls() < calls or frames < 4:
        one_frame(dice, file, streams, lends)
        frames += 1
    return file

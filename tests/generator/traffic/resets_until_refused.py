"""Streams that ask until refused in every frame, with room when they ask; then
the link falls quiet, is reset, and they begin afresh in the same frame."""

from generator.call_file import CallFile
from generator.resets import return_cells, wait_until_quiet
from generator.traffic.asking_until_refused import Stream, plan_with_room
from simulator.records import ALLCALLS


def rest_of_frame(dice, file, streams):
    """Each stream asks until refused at some slot that is left of it."""
    frame_slots = file.plan.frame_slots
    left = frame_slots - file.now() % frame_slots
    when = [dice.below(left) for _ in streams]
    for offset in range(left):
        for stream, slot in zip(streams, when):
            if offset == slot:
                stream.ask_until_refused()
        file.tick()


def until_refused(dice, calls):
    stay = dice.pick([1, 1, 2, 5])
    file = CallFile(plan_with_room(dice, stay), ALLCALLS)
    rounds = 0
    while file.calls() < calls or rounds < 2:
        streams = [Stream(file, flow, stay) for flow in range(file.flows)]
        for stream in streams:
            stream.noted = len(file.grants[stream.flow])
        for _ in range(dice.between(1, 5)):
            rest_of_frame(dice, file, streams)
        return_cells(dice, file, 0)
        wait_until_quiet(dice, file, dice.pick([0, 20]))
        for _ in range(dice.below(file.plan.frame_slots)):
            file.tick()
        file.reset()
        rounds += 1
    return file

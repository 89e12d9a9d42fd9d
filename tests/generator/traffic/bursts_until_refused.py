"""Streams whose bursts ask until refused in every frame, with room when they
ask."""

from generator import good_plans
from generator.bursts import MOST, words_of
from generator.call_file import CallFile
from generator.traffic.asking_until_refused import (
    Stream, often_small_frame, one_frame)
from simulator.burst import HANDLED
from simulator.records import ALLCALLS


class BurstStream(Stream):
    """A flow that asks in bursts; a cell is free again one slot after its
    own."""

    def __init__(self, dice, file, flow):
        super().__init__(file, flow, 1)
        self.dice = dice

    def burst(self):
        """A burst of the flow.  Whether all words that it handles are
        granted."""
        self.settle()
        grants = self.file.grants[self.flow]
        count = self.dice.between(1, MOST)
        wanted = len(grants) + min(count, HANDLED)
        self.file.burst(words_of(self.file, [self.flow] * count))
        return len(grants) == wanted

    def ask_until_refused(self):
        while self.burst():
            pass


def plan_with_room(dice):
    """Cells for a window full of grants, and for those of one frame more."""
    frame_slots, window_frames = often_small_frame(dice)
    flows = dice.between(1, min(8, frame_slots))
    return good_plans.draft(dice, frame_slots, window_frames, flows,
                            lambda share: share * (window_frames + 1) + 1)


def until_refused(dice, calls):
    file = CallFile(plan_with_room(dice), ALLCALLS)
    streams = [BurstStream(dice, file, flow) for flow in range(file.flows)]
    one_frame(dice, file, streams, first=True)
    frames = 1
    while file.calls() < calls or frames < 4:
        one_frame(dice, file, streams, first=False)
        frames += 1
    return file

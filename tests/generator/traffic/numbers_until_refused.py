"""Streams that ask until refused in every frame, with room when they ask, with
the expected numbers; some of them now and then with another one."""

from generator.call_file import CallFile
from generator.numbers import number
from generator.traffic.asking_until_refused import (
    Stream, one_frame, plan_with_room)


class Numbers(Stream):
    """A stream whose words carry the expected numbers, but for some parts in a
    hundred."""

    def __init__(self, dice, file, flow, stay, wrong):
        super().__init__(file, flow, stay)
        self.dice = dice
        self.wrong = wrong

    def ask(self):
        self.settle()
        if self.dice.chance(self.wrong):
            return self.file.ask(self.flow, quantum=number(
                self.dice, self.file, self.flow))
        return self.file.ask(self.flow)


def until_refused(dice, calls):
    stay = dice.pick([1, 2, 5])
    file = CallFile(plan_with_room(dice, stay))
    streams = [Numbers(dice, file, flow, stay, dice.pick([0, 0, 0, 5, 40]))
               for flow in range(file.flows)]
    frames = 0
    while file.calls() < calls or frames < 4:
        one_frame(dice, file, streams, first=frames == 0)
        frames += 1
    return file

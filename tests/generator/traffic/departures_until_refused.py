"""Streams that ask until refused in every frame, with room when they ask, for
tiles that have come; some of them now and then for a tile to come."""

from generator.call_file import CallFile
from generator.departures import departure, has_come
from generator.traffic.asking_until_refused import (
    Stream, one_frame, plan_with_room)


class Tiles(Stream):
    """A stream whose tiles have come, but for some parts in a hundred."""

    def __init__(self, dice, file, flow, stay, to_come):
        super().__init__(file, flow, stay)
        self.dice = dice
        self.to_come = to_come

    def ask(self):
        self.settle()
        if self.dice.chance(self.to_come):
            named = departure(self.dice, self.file)
        else:
            named = departure(self.dice, self.file, [has_come])
        return self.file.ask(self.flow, named)


def until_refused(dice, calls):
    stay = dice.pick([1, 2, 5])
    file = CallFile(plan_with_room(dice, stay))
    streams = [Tiles(dice, file, flow, stay, dice.pick([0, 0, 0, 5, 40]))
               for flow in range(file.flows)]
    frames = 0
    while file.calls() < calls or frames < 4:
        one_frame(dice, file, streams, first=frames == 0)
        frames += 1
    return file

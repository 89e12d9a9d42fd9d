"""Streams that ask until refused in every frame, with room when they ask."""

from generator import good_plans
from generator.call_file import CallFile
from generator.odd_calls import odd_call


class Stream:
    """A flow that asks until refused in every frame.

    A cell is free again `stay` slots after the slot it was taken for.  Its
    credit is given as soon as that date lies in the window.
    """

    def __init__(self, file, flow, stay):
        self.file = file
        self.flow = flow
        self.stay = stay
        self.dates = []             # of credits still to give
        self.noted = 0              # grants whose date stands there

    def settle(self):
        """Give the credits whose dates have come into the window."""
        grants = self.file.grants[self.flow]
        self.dates += [slot + self.stay for slot in grants[self.noted:]]
        self.noted = len(grants)
        last = self.file.last_slot()
        for date in [date for date in self.dates if date <= last]:
            self.file.give(self.flow, self.file.date(date))
        self.dates = [date for date in self.dates if date > last]

    def ask(self):
        self.settle()
        return self.file.ask(self.flow)

    def ask_until_refused(self):
        while self.ask() is not None:
            pass


def plan_with_room(dice, stay):
    """Cells for all grants of any `stay` slots in a row, and one to spare."""
    frame_slots, window_frames = often_small_frame(dice)
    flows = dice.between(1, min(8, frame_slots))
    frames = (stay - 1 + frame_slots - 1) // frame_slots + 1
    spare = 0 if dice.chance(15) else 1
    return good_plans.draft(dice, frame_slots, window_frames, flows,
                            lambda share: min(stay, share * frames) + spare)


def often_small_frame(dice):
    if dice.chance(50):
        return dice.between(1, 6), dice.between(2, 8)
    return good_plans.any_frame(dice)


def one_frame(dice, file, streams, first):
    """One frame: each stream asks until refused at some slot of it."""
    when = [dice.below(file.plan.frame_slots) for _ in streams]
    crowd = dice.pick([0, 10, 40])
    for offset in range(file.plan.frame_slots):
        if offset or not first:
            file.tick()
        for stream, slot in zip(streams, when):
            if offset == slot:
                stream.ask_until_refused()
            elif dice.chance(5):
                stream.ask()
        if dice.chance(crowd):
            odd_call(dice, file)
        elif dice.chance(crowd):
            flow = dice.below(file.flows)
            if all(flow != stream.flow for stream in streams):
                file.ask(flow)


def until_refused(dice, calls):
    stay = dice.pick([1, 1, 2, 3, 5, 8])
    file = CallFile(plan_with_room(dice, stay))
    flows = list(range(file.flows))
    dice.shuffle(flows)
    chosen = flows[:dice.between(1, file.flows)]
    streams = [Stream(file, flow, stay) for flow in chosen]
    one_frame(dice, file, streams, first=True)
    frames = 1
    while file.calls() < calls or frames < 4:
        one_frame(dice, file, streams, first=False)
        frames += 1
    return file

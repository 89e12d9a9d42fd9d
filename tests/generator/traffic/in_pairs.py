"""Two aligned runs in which a flow asks until it is refused with 11 in every
frame, and between its calls each run's neighbours do as they like."""

from generator.aligned_runs import AlignedRuns
from generator.neighbours import Neighbours


def some_flow(dice, draft):
    """Any flow, or the one with the largest share."""
    flows = range(len(draft.entries))
    if dice.chance(40):
        return dice.pick(flows)
    return max(flows, key=lambda flow: draft.entries[flow][0])


class Pair:
    """A pair while it is made; its neighbours are quiet in frame 0, or in some
    manner that changes with the frames."""

    def __init__(self, dice, draft, careless):
        self.dice = dice
        self.careless = careless    # of a hundred places
        flow = some_flow(dice, draft)
        self.both = AlignedRuns(draft, flow)
        self.neighbours = [Neighbours(dice, run, flow)
                           for run in self.both.runs]
        self.changing = 0 if dice.chance(40) else 100   # of their manner

    def between(self):
        for neighbours in self.neighbours:
            neighbours.call()

    def departure(self):
        """Of a tile that has come, in all but careless requests."""
        both, dice = self.both, self.dice
        if dice.chance(self.careless):
            return dice.below(both.plan.slots)
        slot = both.now() - (dice.between(0, both.offset())
                             if dice.chance(30) else 0)
        return slot % both.plan.slots

    def numbers(self):
        """The runs' own, in all but careless requests."""
        if self.dice.chance(self.careless):
            return None, self.dice.below(1024)
        return None, None

    def ask(self):
        """Whether some run granted it; None where it would be without room."""
        careless = self.dice.chance(self.careless)
        if not careless and not self.both.make_room():
            return None
        return self.both.ask(self.departure(), self.numbers())

    def ask_until_refused(self):
        """Whether it was, with no neighbours left out between."""
        while True:
            self.between()
            granted = self.ask()
            if not granted:
                return granted is not None

    def ask_together(self):
        """Some requests, in a burst in one run."""
        dice, both = self.dice, self.both
        count = dice.between(1, 4)
        if not both.make_room(count) or both.room() < count:
            return
        words = []
        for neighbours in self.neighbours:
            words.append([word for _ in range(count) for word in (
                *[neighbours.word() for _ in range(dice.below(4))], None)])
        both.ask_together(words)

    def ill_formed(self):
        """A word of the flow with another destination or departure."""
        dice, both = self.dice, self.both
        to, departure = both.plan.destination(both.flow), both.now()
        if dice.chance(50):
            to = (to + dice.between(1, 63)) % 64
        else:
            departure = dice.between(both.plan.slots, 1023)
        both.ask_word(to << 26 | both.flow << 20 | dice.below(1024) << 10
                      | departure % 1024)

    def credit(self):
        """At any position, also at one that no run takes."""
        dice, both = self.dice, self.both
        run = dice.pick(both.runs)
        if dice.chance(10):
            both.credit(dice.below(both.plan.slots + 3))
        else:
            both.give(run.later_slot(dice))

    def some_call(self):
        self.dice.pick([self.ask, self.ask, self.ask, self.ask_together,
                        self.ill_formed, self.credit, self.credit])()

    def frame(self):
        """A frame in which the flow asks until it is refused."""
        dice, both = self.dice, self.both
        for neighbours in self.neighbours:
            if dice.chance(self.changing):
                neighbours.change()
        self.changing = 60
        when = dice.below(both.plan.frame_slots)
        often = dice.pick([10, 25, 70])
        due = not dice.chance(self.careless)
        for offset in range(both.plan.frame_slots):
            if dice.chance(often):
                self.between()
                self.some_call()
            if due and offset >= when:
                due = not self.ask_until_refused()
            self.between()
            both.tick()

    def files(self, changes):
        """The flow and the two files, with at most so many frame changes."""
        for _ in range(self.dice.between(2, changes)):
            self.frame()
        if self.dice.chance(50):
            self.ask_until_refused()
        return self.both.flow, self.both.files()

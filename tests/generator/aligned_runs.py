"""Two call files of one plan while they are written side by side: the same
ticks, and the same requests and credits of one flow, each request with the
number that its own run expects.  What stands between is each run's own.
"""

from functools import partial

import call_bytes
from generator.call_file import CallFile
from simulator.records import ALLCALLS


def most_held(run, flow):
    """In any slot from the current one on."""
    link = run.link
    return max(link.from_slot(link.ticks, link.holdings(flow)))


def room(run, flow):
    """The cells that are free in every slot from the current one on."""
    return run.plan.cells(flow) - most_held(run, flow)


def first_held(run, flow):
    """The earliest slot to come from which on the flow holds something in
    every slot of the window, or None."""
    held = run.link.holdings(flow)
    slot = run.last_slot()
    while slot > run.now() and held[slot - run.link.first_slot()]:
        slot -= 1
    return slot + 1 if slot < run.last_slot() else None


class AlignedRuns:
    def __init__(self, draft, flow):
        self.runs = [CallFile(draft, ALLCALLS) for _ in range(2)]
        self.plan = self.runs[0].plan
        self.flow = flow

    def files(self):
        return [run.data() for run in self.runs]

    def now(self):
        return self.runs[0].now()

    def offset(self):
        """Of the current slot in its frame."""
        return self.now() % self.plan.frame_slots

    # ---- calls of both runs

    def tick(self):
        for run in self.runs:
            run.tick()

    def ask(self, departure=None, numbers=(None, None)):
        """Whether some run granted it."""
        slots = [run.ask(self.flow, departure, number)
                 for run, number in zip(self.runs, numbers)]
        return any(slot is not None for slot in slots)

    def ask_word(self, word):
        """The same word in both runs, numbers too."""
        for run in self.runs:
            run.record(call_bytes.request_of(word))

    def credit(self, position):
        for run in self.runs:
            run.record(call_bytes.credit(self.flow, position))

    def give(self, slot):
        """A credit dated a slot."""
        self.credit(slot % self.plan.slots)

    def ask_together(self, words):
        """Requests that one run makes in a burst, and the other singly; each
        has a list of words of its own, of which None is the flow's."""
        bursting, single = self.runs
        bursting.burst([word or partial(bursting.word, self.flow)
                        for word in words[0]])
        for word in words[1]:
            make = word or partial(single.word, self.flow)
            single.record(call_bytes.request_of(make()))

    # ---- room

    def room(self):
        """Cells that are free in both runs."""
        return min(room(run, self.flow) for run in self.runs)

    def make_room(self, wanted=1):
        """Credits, as early as a run that lacks room takes them.  Whether
        there is room in both: only a tick changes the current slot."""
        for run in self.runs:
            while room(run, self.flow) < wanted:
                slot, before = first_held(run, self.flow), room(run, self.flow)
                if slot is None:
                    break
                self.give(slot)
                if room(run, self.flow) == before and slot == run.now() + 1:
                    break
        return self.room() >= 1

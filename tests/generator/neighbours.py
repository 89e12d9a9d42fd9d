"""What stands between the calls of one flow, in one run of two: calls of the
other flows, words and credits of flows that are not there, and lends, also to
the flow itself.
"""

import call_bytes
from generator import departures, numbers
from generator.aligned_runs import room
from generator.lends import mask_above, some_mask

SPARE = 2           # cells that are left free in most lends to the flow


def other(dice, run, flow):
    """Another flow, or None where there is none."""
    others = [number for number in range(run.flows) if number != flow]
    return dice.pick(others) if others else None


def ask(dice, run, flow):
    neighbour = other(dice, run, flow)
    if neighbour is not None:
        run.ask(neighbour)


def ask_oddly(dice, run, flow):
    """With any departure, or any number."""
    neighbour = other(dice, run, flow)
    if neighbour is None:
        return
    run.ask(neighbour, departures.departure(dice, run),
            numbers.number(dice, run, neighbour) if dice.chance(30) else None)


def ask_until_refused(dice, run, flow):
    """All other flows, in any order; their cells come back."""
    others = [number for number in range(run.flows) if number != flow]
    dice.shuffle(others)
    for neighbour in others:
        slot = run.ask(neighbour)
        while slot is not None:
            run.give(neighbour, slot)
            slot = run.ask(neighbour)


def give(dice, run, flow):
    neighbour = other(dice, run, flow)
    if neighbour is not None:
        run.give(neighbour, run.later_slot(dice))


def no_such_flow(dice, run, flow):
    """A word or a credit of a flow that the plan has not."""
    missing = dice.pick([run.flows, 63, dice.between(run.flows, 63)])
    if dice.chance(50):
        run.record(call_bytes.credit(missing, dice.below(run.slots)))
    else:
        run.record(call_bytes.request(
            run.plan.destination(dice.below(run.flows)), missing,
            dice.below(1024), dice.below(run.slots)))


def lend(dice, run, flow):
    """To any flows; rarely to one that asks next and has no cell then."""
    mask = some_mask(dice, run)
    if room(run, flow) < SPARE and not dice.chance(2):
        mask &= ~(1 << flow)
    run.lend(mask)


def lend_to_it(dice, run, flow):
    if room(run, flow) >= SPARE:
        run.lend(1 << flow)


def refused_lend(dice, run, flow):
    run.lend(dice.pick([0, mask_above(dice, run) & ~(1 << flow)]))


# How a run's neighbours are: the calls, and how many stand between two calls
# of the flow.
QUIET = (), 0
MANNERS = (
    QUIET,
    ((ask, ask, ask_oddly, give, no_such_flow, lend, refused_lend), 2),
    ((ask_until_refused,), 1),
    ((ask_until_refused, lend, give), 2),
    ((ask_until_refused, ask_until_refused, lend, lend_to_it), 2),
    ((lend, lend_to_it), 1),
    ((ask, give), 3),
    ((ask_oddly, give, lend), 3),
)


class Neighbours:
    """The neighbours of a flow in one run, in a manner that changes."""

    def __init__(self, dice, run, flow):
        self.dice, self.run, self.flow = dice, run, flow
        self.calls, self.most = QUIET

    def change(self):
        self.calls, self.most = self.dice.pick(MANNERS)

    def call(self):
        """Some calls, or none."""
        for _ in range(self.dice.below(self.most + 1)):
            self.dice.pick(self.calls)(self.dice, self.run, self.flow)

    def word(self):
        """How a word of a burst is made."""
        neighbour = other(self.dice, self.run, self.flow)
        if neighbour is None:
            return lambda: call_bytes.word(9, 63)
        return lambda: self.run.word(neighbour)

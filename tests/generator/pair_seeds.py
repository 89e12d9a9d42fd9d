"""A seed to its pairs of aligned runs, and to their kind."""

from generator import good_plans
from generator.dice import Dice
from generator.traffic.in_pairs import Pair

PAIRS = 10              # of a seed

# The kinds: the most slots of a frame that are somebody's, the most frames of
# the window, the most flows, the most frame changes, and in how many of a
# hundred places where a premise could break that is left to chance.
KINDS = {
    "small": (8, 3, 5, 7, 0),
    "few cells": (5, 4, 5, 8, 0),
    "single slots": (2, 8, 2, 12, 0),
    "careless": (6, 4, 5, 6, 4),
    "wide": (16, 4, 5, 4, 0),
    "many flows": (40, 4, 16, 3, 0),
}

# The kinds of seeds 0, 1, 2 and so on, which then begin again.
ORDER = (
    "small", "few cells", "small", "single slots", "small", "careless",
    "few cells", "wide", "small", "few cells", "small", "many flows", "small",
    "few cells", "wide", "single slots", "small", "careless", "small",
    "few cells",
)


def kind_of(seed):
    """The name of the kind of pairs that a seed makes."""
    return ORDER[seed % len(ORDER)]


def plan(dice, kind):
    most_slots, most_frames, most_flows, _, _ = KINDS[kind]
    frame_slots = dice.between(1, most_slots)
    window_frames = dice.between(2, most_frames)
    flows = min(frame_slots, dice.between(2, most_flows))

    def cells(share):
        if kind == "few cells":
            return dice.between(1, share + 2)
        return dice.between(2, share * window_frames + 4)
    draft = good_plans.draft(dice, frame_slots, window_frames, flows, cells)
    if dice.chance(25):
        draft.frame_slots += dice.between(1, 3)     # that are nobody's
    return draft


def generate(seed):
    """The pairs of a seed: of each the flow, and its two call files."""
    dice = Dice(seed)
    kind = kind_of(seed)
    *_, changes, careless = KINDS[kind]
    return [Pair(dice, plan(dice, kind), careless).files(changes)
            for _ in range(PAIRS)]


def files(seed):
    """The same as files, each with the end of its name."""
    for place, (_, pair) in enumerate(generate(seed)):
        for run, data in zip("ab", pair):
            yield "-%d%s" % (place, run), data

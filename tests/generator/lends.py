"""Lends with masks of several sorts, also wrong ones."""

import call_bytes

WIDTH = 16              # bits of a mask


def some_mask(dice, file):
    """Flows of the plan: one, some or all."""
    every = (1 << file.flows) - 1
    return dice.pick([1 << dice.below(file.flows), dice.between(1, every),
                      dice.between(1, every), every])


def mask_above(dice, file):
    """A bit at n or above, alone or with others.  Sixteen flows leave none."""
    if file.flows == WIDTH:
        return (1 << WIDTH) - 1
    bit = dice.pick([file.flows, WIDTH - 1,
                     dice.between(file.flows, WIDTH - 1)])
    return 1 << bit | dice.pick([0, some_mask(dice, file),
                                 dice.below(1 << WIDTH)])


def broken_lend(dice, file):
    """A filler that is not 0."""
    filler = dice.pick([1, 255, dice.between(1, 255)])
    fillers = dice.pick([(filler, 0), (0, filler), (filler, filler)])
    return call_bytes.lend(dice.pick([0, some_mask(dice, file)]), fillers)


def odd_lend(dice, file):
    """An empty mask, a bit at n or above, or a broken record."""
    file.record(dice.pick([call_bytes.lend(0),
                           call_bytes.lend(mask_above(dice, file)),
                           broken_lend(dice, file)]))


def some_lend(dice, file):
    """A lend, one in ten odd.  The flow, or None."""
    if dice.chance(10):
        return odd_lend(dice, file)
    return file.lend(some_mask(dice, file))


def end_in_lends(dice, file):
    """Some slots with lends, and a lend last."""
    for _ in range(dice.below(6)):
        for _ in range(dice.below(3)):
            some_lend(dice, file)
        file.tick()
    for _ in range(dice.between(1, 3)):
        some_lend(dice, file)
    file.lend(some_mask(dice, file))
    return file

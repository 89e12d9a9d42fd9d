"""F and n for the word `count`: in range, at its ends, and out of it."""

WIDE = (256, 65536, 2 ** 24)    # added to a number: the same when cut off
FAR = (0, 9, 10, 16, 17, 18, 64, 65, 255, 999999999)


def near(dice, most):
    """Mostly 1 to `most`, now and then an end of the range or beside it."""
    return dice.pick([dice.between(1, most), dice.between(1, most),
                      dice.pick([1, most, 0, most + 1])])


def numbers(dice):
    pair = [near(dice, 16), near(dice, 8)]
    if dice.chance(15):
        pair[dice.below(2)] = dice.pick(FAR)
    if dice.chance(5):
        pair[dice.below(2)] += dice.pick(WIDE)
    return pair

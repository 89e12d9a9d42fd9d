"""F, links, share and burst for the word `delay`: in range, at the ends, and
out of it."""

WIDE = (256, 65536, 2 ** 24)    # added to a number: the same when cut off
FAR = (0, 15, 64, 65, 999, 1000, 999999999)


def near(dice, least, most):
    """Mostly in range, now and then an end of it or beside it."""
    inside = dice.between(least, most)
    return dice.pick([inside, inside, inside,
                      dice.pick([least, most, max(0, least - 1), most + 1])])


def numbers(dice):
    slots = near(dice, 1, 64)
    share = near(dice, 1, max(1, slots))
    burst = dice.pick([0, near(dice, 0, 999), share, share + 1,
                       3 * share, 3 * share + 1])
    four = [slots, near(dice, 1, 14), share, burst]
    if dice.chance(15):
        four[dice.below(4)] = dice.pick(FAR)
    if dice.chance(5):
        four[dice.below(4)] += dice.pick(WIDE)
    return four

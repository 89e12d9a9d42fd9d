"""Plan bytes for `read`: whole, broken, damaged and random."""

from generator import asked_plans, good_plans, plan_faults


def good(dice):
    return asked_plans.good(dice).data()


def broken(dice):
    """One of the faults of the plan's bytes, or two."""
    plan = good_plans.any_plan(dice)
    faults = (plan_faults.two_faults(dice) if dice.chance(40)
              else [dice.pick(plan_faults.SINGLE)])
    for _, change in faults:
        change(plan, dice)
    return plan.data()


def damaged(dice):
    """A good plan with a byte changed, lost or added, or its end cut off."""
    data = bytearray(good(dice))
    place = dice.below(len(data))
    way = dice.below(5)
    if way == 0:
        data[place] = dice.below(256)
    elif way == 1:
        data[place] ^= 1 << dice.below(8)
    elif way == 2:
        del data[place]
    elif way == 3:
        data.insert(place, dice.below(256))
    else:
        del data[place:]
    return bytes(data)


def stated(data):
    """The bytes with their own length in the first two."""
    return len(data).to_bytes(2, "little") + data[2:]


def random_bytes(dice):
    """Any bytes, most of them with the right length, some with a right
    header as far as test 2 looks."""
    data = dice.data(dice.pick([dice.below(90), 12, 16, 20, 76]))
    if len(data) >= 12 and dice.chance(80):
        data = stated(data)
        if dice.chance(60):
            flows = (len(data) - 12) // 4
            data = data[:2] + bytes([flows, 0, 12, 0]) + data[6:]
    return data


def too_long(dice):
    """More than 76 bytes, up to what a line takes."""
    data = dice.data(dice.pick([77, 80, 256, 1996, 1997,
                                dice.between(77, 1997)]))
    return stated(data) if dice.chance(50) else data


def any_bytes(dice):
    return dice.pick([good, good, broken, broken, damaged, damaged,
                      random_bytes, too_long])(dice)


def digits(dice, data):
    """Hexadecimal digits in small letters, capitals, or both."""
    text = data.hex()
    case = dice.below(3)
    if case == 0:
        return text
    if case == 1:
        return text.upper()
    return "".join(dice.pick([digit, digit.upper()]) for digit in text)

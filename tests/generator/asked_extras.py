"""Optional layers as numbers, for whoever asks which to switch on: with many
ties, worths of 0, shares above the slots, budgets around powers of two and
around the number of sets, and numbers outside the limits."""

NINES = 999999999               # the largest number of a question
WIDE = (256, 65536, 2 ** 24)    # added to a number: the same when cut off
MANY = (13, 14, 16, 40, 256 + 3, 256 + 12)      # layers, too many


def any_layer(dice, slots):
    return [dice.between(1, 64), dice.between(0, 1000)]


def small_layer(dice, slots):
    """Several fit together."""
    return [dice.between(1, max(1, min(64, slots) // 3)),
            dice.between(0, 1000)]


def tying_layer(dice, slots):
    """Sums that are often alike."""
    return [dice.between(1, 3), dice.between(0, 3)]


def worthless_layer(dice, slots):
    return [dice.between(1, 8), dice.pick([0, 0, 0, 1, 1000])]


def edge_layer(dice, slots):
    """Shares about the slots left."""
    share = slots + dice.between(-1, 1)
    return [min(64, max(1, share)), dice.pick([0, 1, 2, 999, 1000])]


LAYERS = (any_layer, small_layer, small_layer, tying_layer, tying_layer,
          worthless_layer, edge_layer)


def some_layers(dice, slots):
    """Layers of one kind, of all kinds, or all the same."""
    count = dice.pick([dice.between(0, 4), dice.between(3, 8),
                       dice.between(0, 12), 12])
    make = dice.pick(LAYERS)
    if dice.chance(10):
        return count * [make(dice, slots)]
    if dice.chance(30):
        return [dice.pick(LAYERS)(dice, slots) for _ in range(count)]
    return [make(dice, slots) for _ in range(count)]


def some_budget(dice, count):
    sets = 2 ** count
    power = 2 ** dice.between(0, count)
    return max(1, dice.pick([
        sets, sets - 1, sets + dice.between(-2, 2), power,
        power + dice.between(-1, 1), dice.between(1, sets), dice.between(1, 9),
        sets + dice.pick(WIDE), dice.pick([4096, 65536, NINES])]))


# ---- numbers outside the limits

def no_budget(dice, asked):
    asked["budget"] = 0


def many_slots(dice, asked):
    asked["slots"] = dice.pick(
        [65, 66, NINES, asked["slots"] + dice.pick(WIDE)])


def many_layers(dice, asked):
    asked["layers"] = [tying_layer(dice, 64) for _ in range(dice.pick(MANY))]


def wrong_layer(dice, asked):
    """A number of one layer."""
    layer = dice.pick(asked["layers"] or [[0, 0]])
    place = dice.below(2)
    layer[place] = dice.pick([
        (0, 65, 66)[dice.below(3)] if place == 0 else 1001,
        layer[place] + dice.pick(WIDE), NINES])


FAULTS = (no_budget, many_slots, many_layers, wrong_layer, wrong_layer)


def numbers(dice):
    """Slots, budget, and share and worth for each layer; one question in six
    has a number outside the limits."""
    slots = dice.pick([dice.between(0, 64), dice.between(0, 12), 0, 64])
    layers = [list(layer) for layer in some_layers(dice, slots)]
    asked = {"slots": slots, "layers": layers,
             "budget": some_budget(dice, len(layers))}
    if dice.chance(16):
        dice.pick(FAULTS)(dice, asked)
    return [asked["slots"], asked["budget"]] + sum(asked["layers"], [])

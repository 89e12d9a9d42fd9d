"""Which optional layers to switch on: rules 18.1 to 18.3.

The sets are made by doubling: with each layer every set there is comes once
without it and once with it, so that they stand in the order of their masks.
"""

from collections import namedtuple

MOST_LAYERS, MOST_SLOTS, MOST_SHARE, MOST_WORTH = 12, 64, 64, 1000
OUTSIDE = 27

Layer = namedtuple("Layer", "share worth")
Extras = namedtuple("Extras", "slots budget layers")


def is_outside(asked):
    return (asked.budget == 0 or asked.slots > MOST_SLOTS
            or len(asked.layers) > MOST_LAYERS
            or any(not 1 <= layer.share <= MOST_SHARE
                   or layer.worth > MOST_WORTH for layer in asked.layers))


def all_sets(layers):
    """The share and the worth of every set, by its mask."""
    sets = [Layer(0, 0)]
    for layer in layers:
        sets += [Layer(share + layer.share, worth + layer.worth)
                 for share, worth in sets]
    return sets


def choose(asked):
    """The refusal or 0, and mask, worth and ceiling."""
    if is_outside(asked):
        return OUTSIDE, None
    sets = all_sets(asked.layers)
    fitting = [(-one.worth, mask)
               for mask, one in enumerate(sets[:asked.budget])
               if one.share <= asked.slots]
    cost, mask = min(fitting)
    ceiling = -cost
    if asked.budget < len(sets):
        ceiling = sum(layer.worth for layer in asked.layers
                      if layer.share <= asked.slots)
    return 0, (mask, -cost, ceiling)

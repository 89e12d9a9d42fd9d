"""How many share lists fit a frame: rules 17.1 and 17.2.

The lists are written out and summed where there are at most a million of
them.  Where there are more, a list that fits is told by the slots at which its
shares end, which are n different ones of F: as many as the ways to choose
them.
"""

from functools import lru_cache
from itertools import product
from math import comb

OUT_OF_RANGE = 26
SLOTS = range(1, 17)
FLOWS = range(1, 9)
MANY = 1_000_000


def written_out(slots, flows):
    """The lists that fit, by looking at each list."""
    lists = product(range(1, slots + 1), repeat=flows)
    return sum(total <= slots for total in map(sum, lists))


@lru_cache(maxsize=None)
def accepted(slots, flows):
    if slots ** flows <= MANY:
        return written_out(slots, flows)
    return comb(slots, flows)


def count(slots, flows):
    """The refusal or 0, and the lists accepted and refused."""
    if slots not in SLOTS or flows not in FLOWS:
        return OUT_OF_RANGE, None
    fit = accepted(slots, flows)
    return 0, (fit, slots ** flows - fit)

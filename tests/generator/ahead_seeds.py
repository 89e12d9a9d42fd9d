"""A seed to the links of a stream, each run twice, the second time with tiles
sent ahead."""

from collections import namedtuple

from generator.dice import Dice
from generator.traffic.over_links import Way

# The most slots of a frame, frames of the window, links and frames played;
# the fewest cells and how many more, in shares; whether premises are left to
# chance; whether links fall quiet and are reset; and whether a tile may be
# sent in the very slot in which it comes, which is wrong (rule 24.2).
Kind = namedtuple("Kind", "most_slots most_frames most_links frames cells "
                  "careless resets hasty", defaults=(False,))

KINDS = {
    "one link": Kind(8, 4, 1, 12, (2, 2), False, False),
    "several links": Kind(6, 3, 4, 12, (2, 2), False, False),
    "few cells": Kind(5, 4, 3, 12, (0, 2), False, False),
    "many cells": Kind(12, 3, 2, 8, (3, 4), False, False),
    "careless": Kind(9, 3, 2, 12, (0, 1), True, False),
    "resets": Kind(6, 3, 2, 8, (1, 2), False, True),
    "resets, few cells": Kind(5, 4, 1, 8, (0, 2), False, True),
}

# The kinds of seeds 0, 1, 2 and so on, which then begin again.
ORDER = ("one link", "several links", "few cells", "resets",
         "many cells", "several links", "resets, few cells", "few cells",
         "several links", "careless")


def kind_of(seed):
    return ORDER[seed % len(ORDER)]


# Not one of them: its runs have to be sent back.
HASTY = Kind(6, 3, 4, 12, (2, 2), False, False, True)


def hasty(seed):
    """As generate, of boards that are too hasty."""
    return Way(Dice(seed), HASTY).files()


def generate(seed):
    """Of each link its two call files, without and with."""
    return Way(Dice(seed), KINDS[kind_of(seed)]).files()


def files(seed):
    """The same as files, each with the end of its name."""
    for place, pair in enumerate(generate(seed)):
        for run, data in zip("ab", pair):
            yield "-%d%s" % (place, run), data

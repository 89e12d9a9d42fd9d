"""Taken images by chance that a lend is made on: the current slot is free, and
lends are looked for from any flow on.  Which flow has to get the slot is told
from the image's bytes alone.
"""

from images.acceptance import NOBODY, tables_of
from images.fields import change
from images.random_images import taken_image
from images.random_resets import later, share_left

LENT = ("lent: to the flow to look from",
        "lent: past flows that are not in the mask",
        "lent: past flows that can't take the slot",
        "lent: past flow n - 1", "lent: to flow n - 1")
NO_FLOW = "18: an empty mask", "18: all flows of the mask are full"
WAYS = LENT + NO_FLOW


def free_image(dice):
    """A taken image whose current slot is neither booked nor marked."""
    image = taken_image(dice)
    tables = tables_of(image)
    owner = list(tables.owner)
    owner[tables.current] = NOBODY
    changes = [("taken", 0), ("owner", tables.current, NOBODY)]
    for number, flow in enumerate(tables.flows):
        changes.append(
            ("C", number, share_left(tables, number, owner, flow.frame)))
    return change(image, *changes)


def some_mask(dice, tables):
    """Flows of the plan: all, some, all but the one to look from, one, and
    seldom none."""
    every = (1 << len(tables.flows)) - 1
    others = every & ~(1 << tables.first)
    return dice.pick([every, every, dice.between(1, every),
                      dice.between(1, every), others or every,
                      1 << dice.below(len(tables.flows)),
                      dice.below(every + 1)])


def some_lend(dice):
    """An image, and a lend on it."""
    image = free_image(dice)
    return image, ("lend", some_mask(dice, tables_of(image)))


# ---- which flow gets the slot

def can_take(tables, number):
    """It holds fewer than its cells at CP and at every later position."""
    flow = tables.flows[number]
    return all(flow.held[position] < flow.cells
               for position in (tables.current, *later(tables)))


def in_turn(tables):
    """The flows from the one to look from on, going round."""
    count = len(tables.flows)
    return [(tables.first + step) % count for step in range(count)]


def right_line(image, mask):
    """The letter and the number of the lend's line."""
    tables = tables_of(image)
    for number in in_turn(tables):
        if mask >> number & 1 and can_take(tables, number):
            return "L", number
    return "R", 18


def next_field(image, letter, number):
    """What the flow to look from has to be after a lend."""
    tables = tables_of(image)
    if letter == "R":
        return tables.first
    return 0 if number == len(tables.flows) - 1 else number + 1


def ways(image, mask, letter, number):
    """What a lend on the image met that is answered so."""
    if letter == "R":
        return {NO_FLOW[1 if mask else 0]}
    tables = tables_of(image)
    turn = in_turn(tables)
    passed = turn[:turn.index(number)]
    found = [not passed,
             any(not mask >> other & 1 for other in passed),
             any(mask >> other & 1 for other in passed),
             number < tables.first, number == len(tables.flows) - 1]
    return {name for name, there in zip(LENT, found) if there}

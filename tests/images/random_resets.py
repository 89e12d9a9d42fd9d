"""Taken images by chance that a reset is made on: quiet ones, and nearly quiet
ones, where one thing is in the way.
"""

from images.acceptance import NOBODY, tables_of
from images.fields import change
from images.random_images import taken_image


def later(tables):
    """The positions later than CP, in their order."""
    return [position for _, position in tables.later()]


def share_left(tables, number, owner, frame):
    """What C has to be with this IF."""
    start = frame * tables.slots
    return tables.flows[number].share - owner[
        start:start + tables.slots].count(number)


# ---- quiet images

def quiet_image(dice):
    """A taken image without its bookings later than CP, and without what is
    held from CP on."""
    image = taken_image(dice)
    tables = tables_of(image)
    owner = list(tables.owner)
    for position in later(tables):
        owner[position] = NOBODY
    changes = [("owner", position, NOBODY) for position in later(tables)]
    for number, flow in enumerate(tables.flows):
        changes.append(
            ("C", number, share_left(tables, number, owner, flow.frame)))
        changes += [("held", number, position, 0)
                    for position in (tables.current, *later(tables))]
    return change(image, *changes)


# ---- one thing in the way

def hold(dice, tables, number):
    """A cell at CP, and at no, some or all later positions."""
    places = [tables.current, *later(tables)]
    count = dice.pick([1, 1, 2, len(places), dice.between(1, len(places))])
    return [("held", number, position, 1) for position in places[:count]]


def book(dice, tables, number):
    """A later position, with IF the newest frame; of three bookings two have a
    cell held there, and one of these at positions after it too.  Nothing
    where the flow's share in that frame is booked."""
    places = later(tables)
    at = dice.pick([0, len(places) - 1, dice.below(len(places))])
    position = places[at]
    owner = list(tables.owner)
    if not share_left(tables, number, owner, position // tables.slots):
        return []
    owner[position] = number
    newest = (tables.current // tables.slots - 1) % tables.frames
    held = places[at:at + dice.pick([0, 1, dice.between(1, len(places))])]
    return [("owner", position, number), ("IF", number, newest),
            ("C", number, share_left(tables, number, owner, newest)),
            *[("held", number, place, 1) for place in held]]


def some_image(dice):
    """As many quiet ones as others."""
    image = quiet_image(dice)
    if dice.chance(50):
        return image
    tables = tables_of(image)
    number = dice.below(len(tables.flows))
    return change(image, *dice.pick([hold, book])(dice, tables, number))


# ---- what a reset meets

GRANTED = ("granted: a free slot", "granted: a booked slot",
           "granted: a marked slot", "granted: old bookings",
           "granted: old holdings", "granted: IF was not HF",
           "granted: C was not the share")
REFUSED = ("23: booked later, nothing held", "23: booked later and held later",
           "23: held at CP alone", "23: held at CP and later")
WAYS = GRANTED + REFUSED


def booked(tables, places):
    return any(tables.owner[place] != NOBODY for place in places)


def held(tables, places):
    return any(flow.held[place] for flow in tables.flows for place in places)


def in_the_way(tables):
    after = later(tables)
    if booked(tables, after):
        return {REFUSED[1 if held(tables, after) else 0]}
    return {REFUSED[3 if held(tables, after) else 2]}


def recycled(tables):
    """What a granted reset came to: the current slot, what had gone by in the
    head frame, and the flows."""
    now, head = tables.current, tables.current // tables.slots
    gone = range(head * tables.slots, now)
    slot = 1 if booked(tables, [now]) else 2 if tables.taken else 0
    found = [True, booked(tables, gone), held(tables, gone),
             any(flow.frame != head for flow in tables.flows),
             any(flow.left != flow.share for flow in tables.flows)]
    names = [GRANTED[slot], *GRANTED[3:]]
    return {name for name, there in zip(names, found) if there}


def ways(image, letter):
    """What a reset of the image met that is answered so."""
    tables = tables_of(image)
    return recycled(tables) if letter == "Z" else in_the_way(tables)

"""Requests on taken images by chance, whose flows expect any numbers.  What
the number comes to is told from the bytes of the images before and after.
"""

from images.acceptance import tables_of
from images.random_images import taken_image

MODULUS = 1024
GRANTED = "granted: 0", "granted: 1,023", "granted: another"
LEFT = "refused with 11", "refused with 12", "refused with 20"
WRONG = ("24: one behind", "24: one ahead", "24: 1,023 for 0",
         "24: 0 for 1,023", "24: another flow's", "24: the low byte is right",
         "24: another")
WAYS = GRANTED + LEFT + WRONG


def some_quantum(dice, tables, flow):
    """The expected one, or another."""
    due = tables.flows[flow].number
    return dice.pick([
        due, due, due, due, due + 1, due - 1, due + 256, dice.below(MODULUS),
        dice.pick(tables.flows).number]) % MODULUS


def some_request(dice):
    """An image, and a well-formed request on it."""
    image = taken_image(dice)
    tables = tables_of(image)
    flow = dice.below(len(tables.flows))
    departure = dice.pick([tables.current, tables.current,
                           dice.below(tables.total)])
    return image, ("request", tables.plan.destination(flow) << 26 | flow << 20
                   | some_quantum(dice, tables, flow) << 10 | departure)


def wrong(image, call, letter, number, after):
    """What is wrong with the answer to a request or with the image after it,
    as far as the number goes, or None."""
    flow, quantum = call[1] >> 20 & 63, call[1] >> 10 & 1023
    before, left = tables_of(image), tables_of(after)
    due = [each.number for each in before.flows]
    if quantum != due[flow]:
        return ((letter, number) != ("R", 24) and "24 is not given"
                or after != image and "24 leaves other bytes")
    if (letter, number) == ("R", 24):
        return "24 is given"
    if letter == "G":
        due[flow] = 0 if due[flow] == MODULUS - 1 else due[flow] + 1
    return [each.number for each in left.flows] != due and "other numbers"


def place(tables, flow, quantum):
    """Which wrong number it is."""
    due = tables.flows[flow].number
    if (quantum, due) == (1023, 0):
        return WRONG[2]
    if (quantum, due) == (0, 1023):
        return WRONG[3]
    if quantum in (due - 1, due + 1):
        return WRONG[quantum - due > 0]
    if any(quantum == other.number for other in tables.flows):
        return WRONG[4]
    return WRONG[5 if quantum % 256 == due % 256 else 6]


def way(image, call, letter, number):
    """How a request on the image ended."""
    flow, quantum = call[1] >> 20 & 63, call[1] >> 10 & 1023
    if letter == "G":
        return GRANTED[{0: 0, 1023: 1}.get(quantum, 2)]
    if number == 24:
        return place(tables_of(image), flow, quantum)
    return "refused with %d" % number

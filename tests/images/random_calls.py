"""A call by chance on an image by chance: most of its numbers are near those
of the image."""

import struct

from images.acceptance import HEADER_SIZE
from images.fields import Places


class About:
    """What a call needs to know of an image that may be none."""

    def __init__(self, image):
        plan = image[HEADER_SIZE:].ljust(76, b"\1")
        self.flows = min(16, max(1, plan[2]))
        self.slots = max(1, plan[6] * plan[8])
        self.frame_slots = max(1, plan[6])
        self.entries = list(struct.iter_unpack("4B", plan[12:76]))
        self.current = int.from_bytes(image[12:14], "little")
        self.numbers = numbers_of(image, self.flows)


def numbers_of(image, flows):
    """What is expected of each flow, or 0 where no number can be read."""
    if len(image) < HEADER_SIZE + 12:
        return [0] * flows
    at = [Places(image).of("number", flow) for flow in range(flows)]
    return [int.from_bytes(image[each:each + 2], "little") & 1023
            for each in at]


def position(dice, about):
    head = about.current - about.current % about.frame_slots
    return dice.pick([about.current, about.current + 1, head, head - 1,
                      head + dice.below(about.frame_slots), about.slots - 1,
                      *[dice.below(about.slots) for _ in range(4)]]
                     ) % about.slots


def some_request(dice, about):
    flow = dice.below(about.flows)
    destination = about.entries[flow][3] & 63
    departure = position(dice, about)
    quantum = about.numbers[flow]
    if dice.chance(15):
        quantum = dice.pick([quantum + 1, quantum - 1, 0, 1023,
                             dice.pick(about.numbers),
                             dice.below(1024)]) & 1023
    if dice.chance(10):
        flow = dice.pick([about.flows, 63, dice.below(64)]) & 63
    if dice.chance(5):
        destination = dice.below(64)
    if dice.chance(5):
        departure = dice.pick([about.slots, 1023, dice.below(1024)]) & 1023
    return ("request", destination << 26 | flow << 20 | quantum << 10
            | departure)


def some_credit(dice, about):
    flow, at = dice.below(about.flows), position(dice, about)
    if dice.chance(10):
        flow = dice.pick([about.flows, 16, 255, flow + 256, flow + (1 << 32),
                          (1 << 64) - 1])
    if dice.chance(10):
        at = dice.pick([about.slots, at + 256, at + 65536, at + (1 << 32),
                        (1 << 64) - 1])
    return "credit", flow, at


def some_tick(dice, about):
    return ("tick",)


def some_lend(dice, about):
    every = (1 << about.flows) - 1
    return "lend", dice.pick([every, every, dice.below(every + 1),
                              1 << dice.below(about.flows), 0,
                              dice.below(65536)])


def some_reset(dice, about):
    return ("reset",)


KINDS = (some_request, some_request, some_request, some_credit, some_credit,
         some_tick, some_lend, some_reset)


def some_call(dice, image):
    return dice.pick(KINDS)(dice, About(image))

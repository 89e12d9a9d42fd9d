"""The fields of an image by their names, for those who change one.

Where a field lies is counted from the plan's own bytes, so that a header that
is wrong moves nothing.
"""

import struct

HEADER = ("total", "plan at", "positions at", "positions", "flows at",
          "flows", "CP", "taken", "look from")
SIZE = 2 * len(HEADER)


class Places:
    def __init__(self, image):
        length, self.flows, _, slots, frames = struct.unpack_from(
            "<5H", image, SIZE)
        self.frame_slots = slots
        self.slots = slots * frames
        self.owners = SIZE + length
        self.parts = self.owners + 2 * self.slots
        self.part = 2 * (3 + self.slots)

    def of(self, name, *place):
        """Where a field begins: a header field by its name, "plan" and a byte
        of the plan, "owner" and a position, "IF", "C" or "number" and a flow,
        or "held" with a flow and a position."""
        if name in HEADER:
            return 2 * HEADER.index(name)
        if name == "plan":
            return SIZE + place[0]
        if name == "owner":
            return self.owners + 2 * place[0]
        start = self.parts + place[0] * self.part
        if name == "held":
            return start + 4 + 2 * place[1]
        if name == "number":
            return start + self.part - 2
        return start + 2 * ("IF", "C").index(name)


def change(image, *changes, places=None):
    """The image with other values.  A change is a field's name, its place and
    the value; "held" and a flow can have the values of all positions.  Fields
    lie where the image's plan says, unless other places are given."""
    places = places or Places(image)
    image = bytearray(image)
    for *field, value in changes:
        if field[0] == "plan":
            image[places.of(*field)] = value
        elif isinstance(value, list):
            struct.pack_into("<%dH" % len(value), image,
                             places.of(*field, 0), *value)
        else:
            struct.pack_into("<H", image, places.of(*field), value)
    return bytes(image)

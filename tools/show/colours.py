"""Colours and marks of flows.

Eight fills whose lightness is evenly apart, so that they differ in grey, and
alternately blue and orange, which colour-blind eyes tell apart too.  Flows 8
to 15 have the same fills with a bar along the bottom.  A flow's number stands
beside its colour wherever there is room.
"""

FILLS = ("#0e59af", "#f5913b", "#072e5b", "#a2caf7",
         "#b45909", "#fcddc2", "#6c3606", "#3c8fef")
DARK, LIGHT = "#000000", "#ffffff"
LETTERS = "0123456789abcdef"    # a flow as one character


def fill(flow):
    return FILLS[flow % len(FILLS)]


def barred(flow):
    """Whether the flow's fill has a bar along the bottom."""
    return flow >= len(FILLS)


def linear(channel):
    part = channel / 255
    return part / 12.92 if part <= 0.04045 else ((part + 0.055) / 1.055) ** 2.4


def luminance(colour):
    """Of `#rrggbb`, from 0 to 1."""
    red, green, blue = (linear(int(colour[place:place + 2], 16))
                        for place in (1, 3, 5))
    return 0.2126 * red + 0.7152 * green + 0.0722 * blue


def contrast(one, other):
    low, high = sorted((luminance(one), luminance(other)))
    return (high + 0.05) / (low + 0.05)


def ink(flow):
    """The colour of a number on the flow's fill."""
    return max((LIGHT, DARK), key=lambda ink: contrast(ink, fill(flow)))

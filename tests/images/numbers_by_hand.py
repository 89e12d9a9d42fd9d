"""Quantum numbers in images, worked out by hand from rules 5.2 and 5.3: images
after calls, and single calls on images whose numbers are any.
"""

from call_bytes import TICK, lend, word
from edges.edge_maker import BASE, TO, ask, burst, credit, edge
from images.by_hand import FRESH, LARGEST, LARGEST_PLAN, LENT, PLAYED
from images.fields import change
from images.results import POWER


def booked(image, flow, position, number):
    """A flow's first booking, of a position of frame 0 of BASE's fresh image,
    and the number after it."""
    held = [0] * position + [1] * (8 - position)
    return change(image, ("owner", position, flow), ("C", flow, 1),
                  ("held", flow, held), ("number", flow, number))


# (calls, the image after the last of them)
AFTER_CALLS = [
    (edge("image: a grant moves the number", BASE, (ask(0), "G 1")),
     booked(FRESH, 0, 1, 1)),
    (edge("image: each flow has its number", BASE,
          (ask(1), "G 1"), (ask(0), "G 2"), (credit(1, 1), "C"),
          (ask(1), "G 3")),
     change(booked(FRESH, 0, 2, 1), ("owner", 1, 1), ("owner", 3, 1),
            ("C", 1, 0), ("number", 1, 2),
            ("held", 1, [0, 0, 0, 1, 1, 1, 1, 1]))),
    (edge("image: 24 leaves the image", BASE,
          (ask(0), "G 1"), (ask(0, quantum=0), "R 24"),
          (ask(0, quantum=2), "R 24"), (ask(1, quantum=1), "R 24"),
          (ask(0, quantum=0, departure=7), "R 24")), booked(FRESH, 0, 1, 1)),
    # IF is frame 1 after 20, and the number is 1 still.
    (edge("image: refusals leave the number", BASE,
          (ask(0), "G 1"), (ask(0, departure=7), "R 20"),
          (credit(0, 8), "R 13"), (lend(0), "R 18")),
     change(booked(FRESH, 0, 1, 1), ("IF", 0, 1), ("C", 0, 2))),
    (edge("image: a lend and a tick leave the number", BASE,
          (TICK, "T -"), (lend(1), "L 0")), LENT),
    # Words of a burst are single requests here.
    (edge("image: the number moves in a burst", BASE,
          (burst(ask(0), ask(0, quantum=0), ask(0, quantum=2), ask(1)),
           "B 0 1", "B 24 0", "B 24 0", "B 0 2")),
     booked(booked(FRESH, 0, 1, 1), 1, 2, 1)),
    (edge("image: the last flow's number stands last", LARGEST_PLAN,
          (ask(15), "G 1"), (ask(15), "G 2"), (ask(15, quantum=0), "R 24")),
     change(LARGEST, ("owner", 1, 15), ("owner", 2, 15), ("C", 15, 2),
            ("held", 15, [0, 1] + [2] * 254))[:-2] + b"\2\0"),
]

# ---- single calls on images

NUMBERED = change(FRESH, ("number", 0, 5), ("number", 1, 1023))
LAST = change(LARGEST, *[("number", flow, 1023 - flow) for flow in range(16)])


def asked(flow, quantum, departure=0):
    return "request", word(TO, flow, quantum, departure)


def granted(flow, quantum, position):
    return word(TO, flow, quantum, position)


REFUSED = 24 * POWER

# (name, image, call, result, what it leaves)
CALLS = [
    ("5 is expected, and 5", NUMBERED, asked(0, 5), granted(0, 5, 1),
     booked(NUMBERED, 0, 1, 6)),
    *[("5 is expected, and %d" % quantum, NUMBERED, asked(0, quantum),
       REFUSED, NUMBERED) for quantum in (0, 4, 6, 261, 1023)],
    ("1,023 is expected, and 1,023", NUMBERED, asked(1, 1023),
     granted(1, 1023, 1), booked(NUMBERED, 1, 1, 0)),
    *[("1,023 is expected, and %d" % quantum, NUMBERED, asked(1, quantum),
       REFUSED, NUMBERED) for quantum in (0, 5, 255, 1022)],
    *[("0 is expected, and %d" % quantum, FRESH, asked(0, quantum),
       REFUSED, FRESH) for quantum in (1, 256, 512, 1023)],
    ("255 is expected, and 255", change(FRESH, ("number", 0, 255)),
     asked(0, 255), granted(0, 255, 1), booked(FRESH, 0, 1, 256)),
    ("256 is expected, and 0", change(FRESH, ("number", 0, 256)),
     asked(0, 0), REFUSED, change(FRESH, ("number", 0, 256))),
    # The tests before 24, and those after it.
    ("another number, and a flow that there is not", NUMBERED,
     ("request", word(TO, 2, 7)), 8 * POWER, NUMBERED),
    ("another number, and another destination", NUMBERED,
     ("request", word(8, 0, 7)), 9 * POWER, NUMBERED),
    ("another number, and departure T", NUMBERED, asked(0, 7, 8),
     10 * POWER, NUMBERED),
    ("another number, and departure 7", NUMBERED, asked(0, 7, 7), REFUSED,
     NUMBERED),
    ("20 leaves the number", NUMBERED, asked(1, 1023, 7), 20 * POWER,
     change(NUMBERED, ("IF", 1, 1))),
    # Flow 0 of the listing is full, and its number is 3.
    ("12 leaves the number", PLAYED, asked(0, 3, 1), 12 * POWER, PLAYED),
    ("24 before 12", PLAYED, asked(0, 2, 1), REFUSED, PLAYED),
    # The other calls leave it.
    ("a tick", NUMBERED, ("tick",), 16, change(NUMBERED, ("CP", 1))),
    ("a frame change", change(NUMBERED, ("CP", 3)), ("tick",), 16,
     change(NUMBERED, ("CP", 4), ("IF", 0, 1), ("IF", 1, 1))),
    ("a lend", NUMBERED, ("lend", 2), 1,
     change(NUMBERED, ("taken", 1), ("held", 1, [1] * 8))),
    ("a credit", change(NUMBERED, ("held", 0, [1] * 8)), ("credit", 0, 1), 0,
     change(NUMBERED, ("held", 0, 0, 1))),
    ("a reset", NUMBERED, ("reset",), 0, NUMBERED),
    # The last two bytes of the longest image.
    ("flow 15 of sixteen", LAST, asked(15, 1008), granted(15, 1008, 1),
     change(LAST, ("owner", 1, 15), ("C", 15, 3),
            ("held", 15, [0] + [1] * 255), ("number", 15, 1009))),
    ("flow 15 of sixteen, with the number of flow 0", LAST, asked(15, 1023),
     REFUSED, LAST),
    ("bytes past it", NUMBERED + b"\1\2\3", asked(1, 1023),
     granted(1, 1023, 1), booked(NUMBERED, 1, 1, 0) + b"\1\2\3"),
]

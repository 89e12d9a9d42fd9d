"""Resets of images, worked out by hand from rules 10.1 and 10.2: quiet images
with what a reset leaves of them, and nearly quiet ones, which stay as they
are.
"""

from call_bytes import RESET, TICK, lend
from edges.edge_maker import BASE, ask, credit, edge
from images.by_hand import FRESH, LARGEST, LENT, THREE
from images.fields import change

# Positions 1 and 2 have gone by; flow 0 held one cell at both, flow 1 one at
# position 2.
OLD_HOLDINGS = [("held", 0, [0, 1, 1, 0, 0, 0, 0, 0]),
                ("held", 1, [0, 0, 1, 0, 0, 0, 0, 0])]

# Flow 0 was granted two words and flow 1 one.
NUMBERS = [("number", 0, 2), ("number", 1, 1)]

# At slot 3, which flow 0 had booked; all positions are empty.
MARKED = change(FRESH, ("CP", 3), ("taken", 1), *OLD_HOLDINGS, *NUMBERS)

BUSY = [(ask(0), "G 1"), (ask(1), "G 2"), (ask(0), "G 3"),
        (credit(0, 3), "C"), (credit(0, 3), "C"), (credit(1, 3), "C"),
        (TICK, "T 0"), (TICK, "T 1"), (TICK, "T 0")]

# (calls, the image after the last of them)
AFTER_CALLS = [
    (edge("image: a reset of a fresh link", BASE, (RESET, "Z")), FRESH),
    (edge("image: 23 changes nothing", BASE,
          (TICK, "T -"), (lend(1), "L 0"), (RESET, "R 23")), LENT),
    (edge("image: a reset moves IF back", BASE,
          (ask(0, departure=7), "R 20"), (RESET, "Z")), FRESH),
    # At slot 5 the head is frame 1 and position 3 the window's last.
    (edge("image: a reset moves IF to frame 1", BASE,
          *[(TICK, "T -")] * 5, (ask(1, departure=3), "R 20"),
          (RESET, "Z")),
     change(FRESH, ("CP", 5), ("IF", 0, 1), ("IF", 1, 1))),
    (edge("image: a reset at a booked slot", BASE,
          (ask(0), "G 1"), (credit(0, 1), "C"), (TICK, "T 0"), (RESET, "Z")),
     change(FRESH, ("CP", 1), ("taken", 1), ("number", 0, 1))),
    (edge("image: a reset keeps what was held", BASE,
          (ask(0), "G 1"), (credit(0, 2), "C"), (TICK, "T 0"),
          (RESET, "R 23"), (TICK, "T -"), (RESET, "Z")),
     change(FRESH, ("CP", 2), ("held", 0, 1, 1), ("number", 0, 1))),
    (edge("image: a mark and old holdings after a reset", BASE,
          *BUSY, (RESET, "Z")), MARKED),
    (edge("image: a second reset in the slot", BASE,
          *BUSY, (RESET, "Z"), (RESET, "Z"), (lend(3), "R 17")), MARKED),
    (edge("image: a request after a reset", BASE,
          *BUSY, (RESET, "Z"), (ask(1), "G 4")),
     change(MARKED, ("owner", 4, 1), ("IF", 1, 1), ("C", 1, 1),
            ("held", 1, [0, 0, 1, 0, 1, 1, 1, 1]), ("number", 1, 2))),
    (edge("image: 24 after a reset", BASE,
          *BUSY, (RESET, "Z"), (ask(0, quantum=0), "R 24"),
          (ask(1, quantum=0), "R 24")), MARKED),
    # The lent cell is back from slot 1 on; lends begin with flow 0 again.
    (edge("image: a reset after a lend", BASE,
          (lend(1), "L 0"), (credit(0, 1), "C"), (TICK, "T -"),
          (RESET, "Z")),
     change(FRESH, ("CP", 1), ("held", 0, 0, 1))),
    (edge("image: a lend after a reset after a lend", BASE,
          (lend(1), "L 0"), (credit(0, 1), "C"), (TICK, "T -"),
          (RESET, "Z"), (lend(3), "L 0")),
     change(FRESH, ("CP", 1), ("taken", 1), ("look from", 1),
            ("held", 0, [1] * 8))),
    # Slot 4: the mark ends, and holdings go on where frame 0 was, as slots 8
    # to 11.
    (edge("image: a frame change after a reset", BASE,
          *BUSY, (RESET, "Z"), (TICK, "T -")),
     change(FRESH, ("CP", 4), ("IF", 0, 1), ("IF", 1, 1), *NUMBERS)),
]

# ---- resets of images that need not come of calls

# The window's last position alone is booked, and held or not.
LAST_BOOKED = change(FRESH, ("owner", 7, 1), ("IF", 1, 1), ("C", 1, 1))

# (name, image, what the reset leaves)
GRANTED = [
    ("fresh", FRESH, FRESH),
    ("the largest", LARGEST, LARGEST),
    ("every IF is the newest", change(FRESH, ("IF", 0, 1), ("IF", 1, 1)),
     FRESH),
    ("the head is frame 1", change(FRESH, ("CP", 6)),
     change(FRESH, ("CP", 6), ("IF", 0, 1), ("IF", 1, 1))),
    ("CP is booked", change(FRESH, ("CP", 1), ("owner", 1, 0), ("C", 0, 1)),
     change(FRESH, ("CP", 1), ("taken", 1))),
    ("position 0 is CP and booked", change(FRESH, ("owner", 0, 1),
                                           ("C", 1, 1)),
     change(FRESH, ("taken", 1))),
    ("CP is marked", change(FRESH, ("taken", 1)), change(FRESH, ("taken", 1))),
    ("CP is booked and marked",
     change(FRESH, ("CP", 2), ("taken", 1), ("owner", 2, 1), ("C", 1, 1)),
     change(FRESH, ("CP", 2), ("taken", 1))),
    ("the position before CP is booked",
     change(FRESH, ("CP", 2), ("owner", 1, 0), ("C", 0, 1)),
     change(FRESH, ("CP", 2))),
    ("the head is booked up to CP, which is its last",
     change(FRESH, ("CP", 3), ("owner", 0, 0), ("owner", 1, 1),
            ("owner", 2, 1), ("owner", 3, 0), ("C", 0, 0), ("C", 1, 0)),
     change(FRESH, ("CP", 3), ("taken", 1))),
    ("frame 1 is booked up to CP, with IF the newest",
     change(FRESH, ("CP", 7), ("owner", 4, 0), ("owner", 7, 0)),
     change(FRESH, ("CP", 7), ("taken", 1), ("IF", 0, 1), ("IF", 1, 1))),
    ("all cells were held before CP",
     change(FRESH, ("CP", 3), ("held", 0, [2, 2, 2, 0, 0, 0, 0, 0]),
            ("held", 1, [2, 0, 2, 0, 0, 0, 0, 0])),
     change(FRESH, ("CP", 3), ("held", 0, [2, 2, 2, 0, 0, 0, 0, 0]),
            ("held", 1, [2, 0, 2, 0, 0, 0, 0, 0]))),
    ("holdings before CP in frame 1",
     change(FRESH, ("CP", 6), ("held", 1, [0, 0, 0, 0, 1, 2, 0, 0])),
     change(FRESH, ("CP", 6), ("IF", 0, 1), ("IF", 1, 1),
            ("held", 1, [0, 0, 0, 0, 1, 2, 0, 0]))),
    ("a mark and old holdings", MARKED, MARKED),
    ("bytes past it", change(FRESH, ("IF", 0, 1)) + b"\1\2\3",
     FRESH + b"\1\2\3"),
    ("the flow to look from is n - 1", change(FRESH, ("look from", 1)),
     FRESH),
    ("the flow to look from is the middle one", change(
        THREE, ("look from", 1)), THREE),
    ("the flow to look from is 15", change(LARGEST, ("look from", 15)),
     LARGEST),
    ("a mark, and the flow to look from is n - 1", change(
        MARKED, ("look from", 1)), MARKED),
    # The numbers stay as they are.
    ("the expected numbers are 1,023 and 1",
     change(FRESH, ("IF", 0, 1), ("number", 0, 1023), ("number", 1, 1)),
     change(FRESH, ("number", 0, 1023), ("number", 1, 1))),
    ("each of sixteen expected numbers is another",
     change(LARGEST, ("look from", 3),
            *[("number", flow, 64 * flow) for flow in range(16)]),
     change(LARGEST, *[("number", flow, 64 * flow) for flow in range(16)])),
]

# One thing is in the way.
NEARLY_QUIET = [
    ("the next position is booked",
     change(FRESH, ("owner", 1, 0), ("C", 0, 1))),
    ("the window's last position is booked", LAST_BOOKED),
    ("position 0 is booked and later", change(
        FRESH, ("CP", 7), ("owner", 0, 1), ("C", 1, 1))),
    ("the last position is booked, going round", change(
        FRESH, ("CP", 4), ("owner", 3, 0), ("C", 0, 1))),
    ("a later position is booked, of the head, at CP 5", change(
        FRESH, ("CP", 5), ("owner", 6, 1), ("IF", 1, 1), ("C", 1, 1))),
    ("flow 0 holds a cell at CP alone", change(
        FRESH, ("CP", 1), ("held", 0, 1, 1))),
    ("the last flow holds a cell at CP alone", change(
        FRESH, ("CP", 5), ("held", 1, 5, 1))),
    ("CP is booked, and held there alone", change(
        FRESH, ("CP", 2), ("owner", 2, 1), ("C", 1, 1), ("held", 1, 2, 1))),
    ("a cell is held everywhere", change(FRESH, ("held", 1, [1] * 8))),
    ("lent", LENT),
    # No position is booked but the last, and nothing held before it.
    ("a cell is held at the last position alone", change(
        LAST_BOOKED, ("held", 1, 7, 1))),
    ("old holdings, and one at CP", change(MARKED, ("held", 1, 3, 1))),
    ("a mark, and the next position is booked", change(
        MARKED, ("owner", 4, 1), ("IF", 1, 1), ("C", 1, 1))),
    # The flow to look from stays with all the rest.
    ("the flow to look from is n - 1, and CP + 1 is booked", change(
        FRESH, ("look from", 1), ("owner", 1, 0), ("C", 0, 1))),
    ("the flow to look from is 15, and flow 0 holds a cell", change(
        LARGEST, ("look from", 15), ("held", 0, [1] * 256))),
    ("the expected number is 1,023, and CP + 1 is booked", change(
        FRESH, ("number", 0, 1023), ("owner", 1, 0), ("C", 0, 1))),
    ("the largest, whose last flow holds a cell at CP", change(
        LARGEST, ("held", 15, 0, 1))),
    ("the largest, whose position 255 is booked", change(
        LARGEST, ("owner", 255, 15), ("IF", 15, 3), ("C", 15, 3))),
]

# (name, image, refusal, what the reset leaves)
RESETS = ([(name, image, 0, left) for name, image, left in GRANTED]
          + [(name, image, 23, image) for name, image in NEARLY_QUIET])

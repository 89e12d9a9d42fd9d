"""Listings that meet demand 3 and that the check has to send back since a
credit is refused of a cell that is held, or taken of none; and right ones,
with how each credit ended.
"""

from demand3.credit_ways import NO_CELL, TAKEN
from edges.edge_maker import RESET, TICK, ask, credit, edge, lend, plan

TWO = plan(2, 2, (1, 2))                # F = 2, W = 2, share 1, 2 cells
WIDE = plan(3, 2, (2, 4))               # F = 3, W = 2, share 2, 4 cells
IDLE = (TICK, "T -")
HELD = "though a cell is held"
NONE = "though no cell is held"

NOW, LATER = TAKEN
NO_FLOW, NO_POSITION, CURRENT, GONE, EMPTY, EMPTY_LATER = NO_CELL

WRONG = [
    (edge("refuses every credit", TWO,
          (ask(0), "G 1"), (credit(0, 1), "R 15")),
     "the credit of flow 0 at 1 is refused, " + HELD),
    # Slot 1 is the last of frame 0.
    (edge("refuses credits in a frame's last slot", TWO,
          (ask(0), "G 1"), (TICK, "T 0"), (credit(0, 2), "R 15")),
     "the credit of flow 0 at 2 is refused, " + HELD),
    # Counted at slot 5, where the cell is held.
    (edge("takes a credit of the current slot", TWO,
          (ask(0), "G 1"), (TICK, "T 0"), (credit(0, 1), "C")),
     "the credit of flow 0 at 1 is taken, " + NONE),
    (edge("takes a credit of a slot that is gone", WIDE,
          (ask(0), "G 1"), (TICK, "T 0"), IDLE, (credit(0, 1), "C")),
     "the credit of flow 0 at 1 is taken, " + NONE),
    # One of the two cells is back from slot 3 on.
    (edge("refuses the second credit of two cells", WIDE,
          (ask(0), "G 1"), (ask(0), "G 2"), (credit(0, 3), "C"),
          (credit(0, 3), "R 15")),
     "the credit of flow 0 at 3 is refused, " + HELD),
]

ALLCALLS_WRONG = [
    (edge("refuses the credit of a lent slot", TWO,
          (lend(1), "L 0"), (credit(0, 1), "R 15")),
     "the credit of flow 0 at 1 is refused, " + HELD),
    (edge("refuses credits after a reset", TWO,
          (RESET, "Z"), (ask(0), "G 1"), (credit(0, 1), "R 15")),
     "the credit of flow 0 at 1 is refused, " + HELD),
]

RIGHT = [
    (edge("a credit ends in each way", WIDE,
          (credit(1, 1), "R 8"), (credit(0, 6), "R 13"),
          (credit(0, 0), "R 14"), (credit(0, 4), "R 15"),
          (ask(0), "G 1"), (credit(0, 4), "C"), (credit(0, 2), "R 15"),
          (ask(0), "G 2"), (TICK, "T 0"), (TICK, "T 0"),
          (credit(0, 1), "R 14"), (credit(0, 3), "C")),
     {NO_FLOW: 1, NO_POSITION: 1, CURRENT: 1, EMPTY: 1, LATER: 2,
      EMPTY_LATER: 1, GONE: 1}),
    (edge("a credit dated this frame", WIDE,
          (ask(0), "G 1"), (credit(0, 2), "C")), {NOW: 1}),
]

ALLCALLS_RIGHT = [
    (edge("the credit of a lent slot", TWO,
          (lend(1), "L 0"), (credit(0, 1), "C")), {NOW: 1}),
]

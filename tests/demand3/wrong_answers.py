"""Listings that meet demand 3 and that the check has to send back since a lend
or a reset is refused that should not be, or granted (rule 22.14); and right
ones.
"""

from edges.edge_maker import BASE, RESET, TICK, ask, credit, edge, lend, plan

ONE_CELL = plan(4, 2, (2, 1))           # F = 4, W = 2, share 2
ABLE = "is refused, though flow 0 can take the slot"

# BASE has two flows with share 2 and 2 cells, where F = 4 and W = 2.
WRONG = [
    # One of flow 0's two cells is held from slot 1 on.
    (edge("refuses a lend to a flow with a slot to come", BASE,
          (ask(0), "G 1"), (lend(1), "R 18")), "mask 0x1 " + ABLE),
    (edge("keeps the mark past a tick", BASE,
          (lend(1), "L 0"), (TICK, "T -"), (lend(1), "R 17")),
     "mask 0x1 " + ABLE),
    (edge("marks the slot at a refused lend", BASE,
          (lend(0), "R 18"), (lend(1), "R 17")), "mask 0x1 " + ABLE),
    (edge("refuses a mask of all flows", BASE,
          (lend(3), "R 8")), "mask 0x3 " + ABLE),
    (edge("answers a mask with a bit too many", BASE,
          (lend(5), "L 0")), "mask 0x5 is answered, though no flow"),
    # Flow 0 holds its one cell from slot 1 on.
    (edge("refuses where the first flow can't take the slot",
          plan(4, 2, (2, 1), (2, 2)), (ask(0), "G 1"), (lend(3), "R 18")),
     "mask 0x3 is refused, though flow 1 can take the slot"),
    (edge("refuses a reset on a fresh link", BASE,
          (RESET, "R 23")), "the reset is refused, though all is at rest"),
    # Slot 1 is booked and current, and its cell has come back.
    (edge("refuses a reset in a booked slot", BASE,
          (ask(0), "G 1"), (credit(0, 1), "C"), (TICK, "T 0"),
          (RESET, "R 23")), "the reset is refused, though all is at rest"),
    (edge("grants a reset over a cell that stays held", ONE_CELL,
          (ask(0), "G 1"), (TICK, "T 0"), (TICK, "T -"), (RESET, "Z"),
          (ask(0), "R 12")),
     "the reset is granted, though not all is at rest"),
    # The cell has come back, and slot 2 comes up for flow 0 all the same.
    (edge("grants a reset over a slot to come", BASE,
          (ask(0), "G 1"), (credit(0, 1), "C"), (RESET, "Z"), (TICK, "T 0")),
     "the reset is granted, though not all is at rest"),
]

RIGHT = [
    edge("lends and resets that are answered", BASE,
         (RESET, "Z"), (ask(0), "G 1"), (RESET, "R 23"), (lend(1), "L 0"),
         (lend(1), "R 17"), (TICK, "T 0"), (lend(2), "R 17"), (TICK, "T -"),
         (lend(1), "R 18"), (lend(4), "R 8"), (credit(0, 3), "C"),
         (credit(0, 3), "C"), (TICK, "T -"), (RESET, "Z"), (lend(1), "L 0")),
]

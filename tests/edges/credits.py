"""Edges of credit: its refusals 8 and 13 to 15, and what is held after it."""

from edges.edge_maker import BASE, TICK, ask, credit, edge, plan

REFUSED = [
    # Rule 7.1: flow, then position, then place, then holding.  256 and 65535
    # are 16-bit positions, so their low byte alone does not count.
    edge("refusals 8 and 13 to 15 in order", BASE,
         (ask(0), "G 1"),
         (credit(2, 1), "R 8"), (credit(255, 65535), "R 8"),
         (credit(0, 8), "R 13"), (credit(0, 65535), "R 13"),
         (credit(0, 257), "R 13"),
         (credit(0, 0), "R 14"),
         (credit(1, 1), "R 15"),    # flow 1 holds nothing
         (credit(0, 7), "C"),       # last position of the window
         (credit(0, 7), "R 15")),

    # Rules 3.1, 3.2 and 3.4, after 3 ticks with F = 2, W = 3: CP = 3, HF is
    # positions 2 and 3, which have gone by.  Positions 0 and 1 are the newest
    # frame, slots 6 and 7: not 14.
    edge("14 where the head frame is not 0", plan(2, 3, (1, 2)),
         (TICK, "T -"), (TICK, "T -"), (TICK, "T -"),
         (credit(0, 2), "R 14"), (credit(0, 3), "R 14"),
         (credit(0, 4), "R 15"), (credit(0, 1), "R 15"),
         (credit(0, 0), "R 15")),
]

TAKEN = [
    # Rule 7.2: a credit dated the granted slot itself counts there, and one
    # is held less: 1 - 1 = 0.
    edge("a credit dated the grant", plan(4, 2, (2, 1)),
         (ask(0), "G 1"), (ask(0), "R 12"),
         (credit(0, 1), "C"),
         (credit(0, 1), "R 15"),
         (ask(0), "G 4")),          # 12 left IF at frame 1

    # Each flow has cells of its own: flow 0's credit leaves flow 1's cell.
    edge("a credit is for one flow", BASE,
         (ask(0), "G 1"), (ask(1), "G 2"),
         (credit(0, 3), "C"), (credit(0, 3), "R 15"),
         (credit(1, 3), "C"), (credit(1, 3), "R 15")),

    # Dated before the grant there is nothing held yet.
    edge("a credit dated before the grant", BASE,
         (ask(1), "G 1"), (ask(0), "G 2"),
         (credit(0, 1), "R 15"), (credit(0, 2), "C")),
]

EDGES = REFUSED + TAKEN

"""Listings with lends out of turn, for allcalls, that the check has to send
back by fairness, each with words of the fault; and right ones."""

from edges.edge_maker import BASE, RESET, TICK, credit, edge, lend, plan

THREE = plan(4, 2, (1, 8), (1, 8), (1, 8))

WRONG = [
    (edge("lends to the lowest flow always", BASE,
          (lend(3), "L 0"), (TICK, "T -"), (lend(3), "L 0")),
     "lent to 0 again before 1, which waits"),
    (edge("goes on from the flow that it looked from", THREE,
          (lend(4), "L 2"), (TICK, "T -"), (lend(7), "L 1"), (TICK, "T -"),
          (lend(7), "L 2")), "lent to 2 again before 0, which waits"),
    (edge("a refused lend is a turn", BASE,
          (lend(3), "L 0"), (lend(3), "R 17"), (TICK, "T -"),
          (lend(3), "L 0")), "lent to 0 again before 1, which waits"),
    (edge("a refused reset begins with flow 0", BASE,
          (lend(3), "L 0"), (RESET, "R 23"), (TICK, "T -"),
          (lend(3), "L 0")), "lent to 0 again before 1, which waits"),
    (edge("a frame change begins with flow 0", THREE,
          (lend(7), "L 0"), *[(TICK, "T -")] * 4, (lend(7), "L 0")),
     "lent to 0 again before 1, which waits"),
]

RIGHT = [
    # Flow 1 is not in the second mask, and is passed over.
    (edge("a flow that is not in the mask is passed over", BASE,
          (lend(3), "L 0"), (TICK, "T -"), (lend(1), "L 0"), (TICK, "T -"),
          (lend(3), "L 1")), {}),
    # Flow 1 has both of its cells lent.
    (edge("a flow that can't take the slot is passed over", BASE,
          (lend(2), "L 1"), (TICK, "T -"), (lend(2), "L 1"), (TICK, "T -"),
          (lend(3), "L 0"), (TICK, "T -"), (lend(3), "L 0")), {}),
    (edge("a granted reset begins with flow 0", BASE,
          (lend(3), "L 0"), (credit(0, 1), "C"), (TICK, "T -"), (RESET, "Z"),
          (lend(3), "L 0")), {}),
]

"""Listings with lends, for allcalls, that the check of demand 3 has to send
back, each with words of the fault; and right ones, with the k up to which the
least count is tried for each flow.
"""

from edges.edge_maker import BASE, TICK, ask, credit, edge, lend, plan

ONE_CELL = plan(4, 2, (2, 1))           # F = 4, W = 2, share 2
ROOMY = plan(1, 2, (1, 255))            # every tick is a frame change

WRONG = [
    (edge("lends a booked slot", BASE,
          (ask(0), "G 1"), (TICK, "T 0"), (lend(2), "L 1")),
     "slot 1 granted to 0 and lent to 1"),
    (edge("lends a booked slot to its owner", BASE,
          (ask(0), "G 1"), (TICK, "T 0"), (lend(1), "L 0")),
     "slot 1 granted to 0 and lent to 0"),
    (edge("lends a slot twice", BASE,
          (lend(3), "L 0"), (lend(3), "L 1")), "slot 0 lent to 0 and to 1"),
    (edge("lends a slot twice, the mark forgotten at a credit", BASE,
          (TICK, "T -"), (lend(1), "L 0"), (credit(0, 2), "C"),
          (lend(1), "L 0")), "slot 1 lent to 0 and to 0"),
    # One cell: lent at slot 0 and booked at slot 1.
    (edge("doesn't count a lent slot for a request", ONE_CELL,
          (lend(1), "L 0"), (ask(0), "G 1")), "flow 0 holds 2 at slot 1"),
    (edge("doesn't count a lent slot for a lend", ONE_CELL,
          (lend(1), "L 0"), (TICK, "T -"), (lend(1), "L 0")),
     "flow 0 holds 2 at slot 1"),
    # The cell lent in frame 0 is still held in frame 2.
    (edge("drops a lent slot at a frame change", ONE_CELL,
          (lend(1), "L 0"), *[(TICK, "T -")] * 8, (lend(1), "L 0")),
     "flow 0 holds 2 at slot 8"),
    (edge("lends to a flow that is full at the slot", ONE_CELL,
          (ask(0), "G 1"), (TICK, "T 0"), (TICK, "T -"), (credit(0, 3), "C"),
          (lend(1), "L 0")), "flow 0 holds 2 at slot 2"),
    (edge("lends to a flow that is full later", ONE_CELL,
          (ask(0), "G 1"), (lend(1), "L 0")), "flow 0 holds 2 at slot 1"),
    (edge("gives a lent cell back twice", BASE,
          (lend(1), "L 0"), (credit(0, 1), "C"), (credit(0, 2), "C")),
     "flow 0 holds -1 at slot 2"),
    (edge("lends to a flow that is not in the mask", BASE,
          (lend(2), "L 0")), "lent to 0, which is not in mask 0x2"),
    (edge("lends with an empty mask", BASE,
          (lend(0), "L 1")), "lent to 1, which is not in mask 0x0"),
    (edge("lends to a flow that the plan has not", BASE,
          (lend(4), "L 2")), "flow 2, which the plan has not"),
    (edge("brings a lent slot up", BASE,
          (lend(1), "L 0"), *[(TICK, "T -")] * 7, (TICK, "T 0")),
     "slot 8 comes up for 0"),
    # A lent slot is none of the (W - 1) x share = 1 that are granted.
    (edge("counts a lent slot in the least", ROOMY,
          (lend(1), "L 0"), (ask(0), "R 11")), "below the least"),
    (edge("answers a lend with nobody", BASE, (lend(1), "L -")),
     "answered 'L -'"),
    (edge("answers a lend like a credit", BASE, (lend(1), "C")),
     "answered 'C'"),
    (edge("lends where a filler is not 0", BASE,
          (lend(1, fillers=(0, 1)), "L 0")), "no call"),
]

RIGHT = [
    # (W + k) x share = 2 grants, and a lent slot more.
    (edge("a lent slot beside the most", plan(4, 2, (1, 8)),
          (lend(1), "L 0"), (ask(0), "G 1"), (ask(0), "G 4"),
          (ask(0), "R 11")), {0: 0}),
    # The only cell is lent when the stream asks: it may be refused.
    (edge("a lent slot in the least count's premise", ONE_CELL,
          (lend(1), "L 0"), (ask(0), "R 12")), {}),
    (edge("refused lends count nothing", BASE,
          (lend(4), "R 8"), (lend(0), "R 18"), (ask(0), "G 1"),
          (TICK, "T 0"), (lend(1), "R 17"), (TICK, "T -")), {}),
    # Even slots are granted, and slot 1; the other odd ones are lent.
    (edge("a lent slot in each frame", plan(2, 2, (1, 255)),
          (lend(1), "L 0"), (ask(0), "G 1"), (ask(0), "G 2"),
          (ask(0), "R 11"), (TICK, "T 0"), (lend(1), "R 17"),
          *[step for k in range(1, 10) for step in (
              (TICK, "T 0"), (lend(1), "R 17"),
              (ask(0), "G %d" % ((2 * k + 2) % 4)), (ask(0), "R 11"),
              (TICK, "T -"), (lend(1), "L 0"), (lend(1), "R 17"))]), {0: 9}),
]

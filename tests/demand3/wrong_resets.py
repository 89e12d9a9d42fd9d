"""Listings with resets, for allcalls, that the check of demand 3 has to send
back, each with words of the fault; and right ones, with the k up to which the
least count is tried for each flow.
"""

from edges.edge_maker import BASE, RESET, TICK, ask, credit, edge, lend, plan

ONE_CELL = plan(4, 2, (2, 1))           # F = 4, W = 2, share 2
ROOMY = plan(4, 2, (1, 8))
THREE_FRAMES = plan(4, 3, (2, 8))
SINGLE_SLOT = plan(1, 2, (1, 255))      # every tick is a frame change

WRONG = [
    (edge("forgets the mark of a booked slot", BASE,
          (ask(0), "G 1"), (credit(0, 1), "C"), (TICK, "T 0"), (RESET, "Z"),
          (lend(1), "L 0")), "slot 1 granted to 0 and lent to 0"),
    (edge("forgets the mark at a second reset", BASE,
          (ask(0), "G 1"), (credit(0, 1), "C"), (TICK, "T 0"), (RESET, "Z"),
          (RESET, "Z"), (lend(2), "L 1")), "slot 1 granted to 0 and lent to 1"),
    (edge("forgets the mark of a lent slot", BASE,
          (lend(1), "L 0"), (RESET, "Z"), (lend(2), "L 1")),
     "slot 0 lent to 0 and to 1"),
    (edge("empties a later slot that is booked", BASE,
          (ask(0), "G 1"), (credit(0, 1), "C"), (RESET, "Z"), (TICK, "T -")),
     "slot 1 comes up for -, granted to 0"),
    (edge("grants a slot that was booked before it", BASE,
          (ask(0), "G 1"), (RESET, "Z"), (ask(1), "G 1")),
     "slot 1 granted to 0 and to 1"),
    (edge("forgets what is held", ONE_CELL,
          (ask(0), "G 1"), (TICK, "T 0"), (RESET, "Z"), (ask(0), "G 2")),
     "flow 0 holds 2 at slot 2"),
    (edge("forgets what is held by a lent slot", ONE_CELL,
          (lend(1), "L 0"), (TICK, "T -"), (RESET, "Z"), (lend(1), "L 0")),
     "flow 0 holds 2 at slot 1"),
    # Position 1 is current, so that it means slot 9.
    (edge("puts the clock back", BASE,
          (TICK, "T -"), (RESET, "Z"), (ask(0), "G 1")),
     "slot 9 is not below t + T"),
    # (W - 1 + 0) x share = 4 are due, and IF is left at the newest frame.
    (edge("leaves IF where it was", THREE_FRAMES,
          (ask(0, departure=11), "R 20"), (RESET, "Z"),
          (ask(0), "G 8"), (ask(0), "G 9"), (ask(0), "R 11")),
     "below the least of 4"),
    (edge("only refuses after it", ROOMY,
          (ask(0), "G 1"), (ask(0), "G 4"), (ask(0), "R 11"),
          (credit(0, 1), "C"), (credit(0, 4), "C"),
          (TICK, "T 0"), *[(TICK, "T -")] * 2, (TICK, "T 0"),
          (RESET, "Z"), (ask(0), "R 11")), "0 grants, below the least of 1"),
    (edge("grants more than the share after it", ROOMY,
          (RESET, "Z"), (ask(0), "G 1"), (ask(0), "G 2")),
     "more than its share in frame 0"),
    # Slot 12 is the fifth since the reset, with no frame change since.
    (edge("counts frame changes before it in the most", plan(4, 2, (2, 8)),
          *[(TICK, "T -")] * 4, (RESET, "Z"),
          (ask(0), "G 5"), (ask(0), "G 6"), (ask(0), "G 0"), (ask(0), "G 1"),
          (TICK, "T 0"), (ask(0), "G 4")), "5 grants, above the most of 4"),
    (edge("answers a reset like a credit", BASE, (RESET, "C")),
     "answered 'C'"),
    (edge("answers a reset with a number", BASE, (RESET, "Z 0")),
     "answered 'Z 0'"),
    (edge("resets where a filler is not 0", BASE,
          (bytes([5, 0, 0, 0, 1]), "Z")), "no call"),
    # A refused reset begins nothing afresh.
    (edge("counts afresh after a refused reset", ROOMY,
          (ask(0), "G 1"), (RESET, "R 23"), (ask(0), "G 2")),
     "more than its share in frame 0"),
]

RIGHT = [
    # Slot 3 is the third of frame 0, and the first since the reset.
    (edge("a third slot of a frame after a reset", BASE,
          (ask(0), "G 1"), (credit(0, 1), "C"),
          (ask(0), "G 2"), (credit(0, 2), "C"),
          (TICK, "T 0"), (TICK, "T 0"), (RESET, "Z"), (ask(0), "G 3")), {}),
    # It was refused in frame 0, but before the reset: nothing is due.
    (edge("a refusal before a reset", BASE,
          (ask(0, departure=7), "R 20"), (RESET, "Z"), (TICK, "T -")), {}),
    # Tiles that had not come before it count no more.
    (edge("the premise begins afresh", BASE,
          (ask(0, departure=7), "R 20"), (RESET, "Z"),
          (ask(0), "G 1"), (credit(0, 1), "C"),
          (ask(0), "G 2"), (credit(0, 2), "C"),
          (ask(0), "G 4"), (credit(0, 4), "C"),
          (ask(0), "G 5"), (credit(0, 5), "C"), (ask(0), "R 11")), {0: 0}),
    # No request in frames 1 to 4: k = 0 at the reset, which is in frame 5.
    (edge("k begins afresh", SINGLE_SLOT,
          (ask(0), "G 1"), (credit(0, 1), "C"), (ask(0), "R 11"),
          (TICK, "T 0"), *[(TICK, "T -")] * 4, (RESET, "Z"),
          (ask(0), "G 0"), (credit(0, 0), "C"), (ask(0), "R 11"),
          *[step for k in range(1, 4) for step in (
              (TICK, "T 0"), (ask(0), "G %d" % (k % 2)),
              (credit(0, k % 2), "C"), (ask(0), "R 11"))]), {0: 3}),
    # A refused reset leaves the counts as they are.
    (edge("a refused reset counts nothing", ROOMY,
          (ask(0), "G 1"), (ask(0), "G 4"), (RESET, "R 23"),
          (ask(0), "R 11")), {0: 0}),
]

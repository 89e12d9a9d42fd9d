"""Edges of tick: slots that come up, and frame changes."""

from edges.edge_maker import TICK, ask, credit, edge, plan

EMPTIED = [
    # Rule 8.3: the old head is emptied: slot 5 is position 1 again, granted
    # to nobody.
    edge("a position is idle when it comes again", plan(2, 2, (1, 3)),
         (ask(0), "G 1"), (TICK, "T 0"),
         *[(TICK, "T -")] * 8),

    # And it can be booked again: slots 4 and 5 are positions 0 and 1.
    edge("an emptied position is booked again", plan(2, 2, (2, 8)),
         (ask(0), "G 1"), (ask(0), "G 2"), (ask(0), "G 3"), (ask(0), "R 11"),
         (TICK, "T 0"), (TICK, "T 0"),
         (ask(0), "G 0"), (ask(0), "G 1"), (ask(0), "R 11"),
         (TICK, "T 0"), (TICK, "T 0"), (TICK, "T 0"), (TICK, "T -")),
]

# F = 1, W = 2, two cells, through two frame changes.
SINGLE_SLOT = edge(
    "F = 1 through two frame changes", plan(1, 2, (1, 2)),
    (ask(0), "G 1"), (ask(0), "R 11"),
    (TICK, "T 0"),                  # slot 1; the newest frame is slot 2
    (ask(0), "G 0"), (ask(0), "R 11"),
    (TICK, "T 0"),                  # slot 2; the newest frame is slot 3
    (ask(0), "R 12"),               # slots 1 and 2 hold both cells
    (credit(0, 0), "R 14"),         # position 0 is CP
    (credit(0, 1), "C"),            # slot 3
    (ask(0), "G 1"), (ask(0), "R 11"),
    (TICK, "T 0"))

# F = 2, W = 2, share 1.  In frame k the newest frame is k + 1, its first slot
# 2k + 2; the stream asks until refused in each of the frames 0 to 9.  Slot 1
# was granted too, no other odd slot ever.
ROUND_AND_ROUND = edge(
    "nine frame changes, asking until refused", plan(2, 2, (1, 255)),
    (ask(0), "G 1"), (ask(0), "G 2"), (ask(0), "R 11"),
    *[step for k in range(1, 10) for step in (
        (TICK, "T 0" if k == 1 else "T -"), (TICK, "T 0"),
        (ask(0), "G %d" % ((2 * k + 2) % 4)), (ask(0), "R 11"))])

EDGES = EMPTIED + [SINGLE_SLOT, ROUND_AND_ROUND]

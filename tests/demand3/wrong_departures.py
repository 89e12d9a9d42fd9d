"""Listings that the check of demand 3 has to send back since a tile leaves
before it has come, or is refused though it has; and right ones, with the k up
to which the least count is tried for each flow.
"""

from edges.departures import FIRST_BOARD, GONE_BY, SECOND_BOARD
from edges.edge_maker import BASE, TICK, ask, edge, plan

ROOMY = plan(4, 2, (2, 9))              # F = 4, W = 2, share 2
EACH_FRAME = plan(2, 2, (1, 255))       # F = 2, W = 2, share 1
EARLY = "slot %d is granted for a tile that comes in slot %d"
LEAST = "below the least"

WRONG = [
    (edge("grants the departure's own slot", ROOMY,
          (ask(0, departure=2), "G 2")), EARLY % (2, 2)),
    (edge("grants a slot of an earlier frame", ROOMY,
          (ask(0, departure=5), "G 1")), EARLY % (1, 5)),
    (edge("grants a slot for the window's last departure", ROOMY,
          (ask(0, departure=7), "G 4")), EARLY % (4, 7)),
    # At slot 5 position 0 is slot 8, and position 3 is slot 11, though slots
    # 0 and 3 have gone by.
    (edge("grants a slot before the tile's, going round", ROOMY,
          *[(TICK, "T -")] * 5, (ask(0, departure=0), "G 6")), EARLY % (6, 8)),
    (edge("takes a slot that has gone by for the tile's", ROOMY,
          *[(TICK, "T -")] * 5, (ask(0, departure=3), "G 6")),
     EARLY % (6, 11)),
    # Position 7 has the higher number, but slot 7 comes before slot 9.
    (edge("compares positions and not slots", ROOMY,
          *[(TICK, "T -")] * 5, (ask(0, departure=1), "G 7")), EARLY % (7, 9)),
    # The least is (W - 1) x share = 2 in frame 0 for tiles that have come.
    (edge("refuses a tile whose departure is CP", ROOMY,
          (TICK, "T -"), (ask(0, departure=1), "R 20")), LEAST),
    (edge("refuses a tile whose departure lies before CP", ROOMY,
          (TICK, "T -"), (TICK, "T -"), (ask(0, departure=0), "R 20")),
     LEAST),
    # Another flow's tile, and one that isn't in a well-formed word.
    (edge("refuses after a tile to come of another flow", BASE,
          (ask(1, departure=7), "R 20"), (ask(0), "R 12")), LEAST),
    (edge("refuses after a tile to come in a word for another node", ROOMY,
          (ask(0, departure=7, to=8), "R 9"), (ask(0), "R 12")), LEAST),
]

RIGHT = [
    (edge("20 for a tile to come", ROOMY, (ask(0, departure=7), "R 20")), {}),
    (edge("a slot after the tile's", ROOMY,
          (ask(0, departure=2), "G 3"), (ask(0, departure=4), "G 5"),
          (ask(0), "G 4"), (ask(0), "R 11")), {}),
    # The least count is tried in frame 0, before the tiles to come.
    (GONE_BY, {0: 0}),
    # Flow 0 of the first board asks with both cells held; of the second, for
    # tiles to come.
    (FIRST_BOARD, {}),
    (SECOND_BOARD, {}),
    # In frame k, at slot 2k + 1, the departures are 2k modulo 4: before CP.
    (edge("departures before CP in each frame", EACH_FRAME,
          (ask(0), "G 1"), (ask(0), "G 2"), (ask(0), "R 11"), (TICK, "T 0"),
          *[step for k in range(1, 10) for step in (
              (TICK, "T 0"), (TICK, "T -"),
              (ask(0, departure=2 * k % 4), "G %d" % ((2 * k + 2) % 4)),
              (ask(0, departure=2 * k % 4), "R 11"))]), {0: 9}),
]

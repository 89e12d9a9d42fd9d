"""The edges that were asked for from the start, by the rules as they are."""

from edges.edge_maker import Edge, TICK, ask, credit, edge, plan

EDGES = [
    # Rules 5.1 and 13.5: 24000400 is destination 9, flow 0 and number 1, and
    # 24100000 is flow 1; each line has its letter.
    Edge("the listing of rule 13.6",
         bytes.fromhex(
             "14 00 02 00 0C 00 04 00 02 00 04 00 02 02 01 09 02 02 02 09"
             "01 00 00 00 24  01 00 04 00 24  01 00 08 00 24  02 00 04 00 00"
             "01 00 08 00 24  01 00 00 10 24  03 00 00 00 00"),
         ["P 0", "G 1", "G 2", "R 12", "C", "G 4", "G 3", "T 0"]),

    # Rule 4.3: each call finds what the one before left.  With one count of
    # cells for all flows these calls overfill the buffer.
    edge("the calls over four frames", plan(4, 4, (2, 2), (2, 2)),
         (ask(0), "G 1"),
         (ask(0), "G 2"),
         (ask(0), "R 12"),          # holds both cells in frames 1 to 3
         (credit(0, 3), "C"),
         (credit(0, 3), "C"),
         (ask(0), "G 12"),          # IF stays newest after 12: frame 3
         (ask(0), "G 13"),
         (ask(1), "G 3"),           # 1 and 2 are booked
         (ask(1), "G 4"),           # frame 0 has nothing left
         (ask(1), "R 12")),         # holds both cells from 4 on

    # T = 8 (rule 1.4): departure 8 is not below T, and changes nothing.  7 is
    # below T, but no position is later: 20, which leaves IF at frame 1 (rule
    # 6.6).
    edge("departure T - 1 and T", plan(4, 2, (2, 4)),
         (ask(0, departure=7), "R 20"),
         (ask(0, departure=8), "R 10"),
         (ask(0, departure=1023), "R 10"),
         (ask(0, departure=0), "G 4")),

    # The same where T is largest; frame 3 is newest.
    edge("departure 255 and 256", plan(64, 4, (2, 4)),
         (ask(0, departure=255), "R 20"),
         (ask(0, departure=256), "R 10"),
         (ask(0, departure=254), "G 255")),

    # Rule 4.2: CP is 0, and nothing is held, so 15 at 1; 14 is tested before
    # 15.
    edge("credits on a fresh link", plan(4, 2, (2, 2), (2, 2)),
         (credit(0, 1), "R 15"),
         (credit(0, 0), "R 14")),

    # Rule 6.1: at CP = 3 frame 0 has no later position; frame 1 begins with
    # 4.
    edge("an untouched flow at CP = 3", plan(4, 2, (2, 2)),
         (TICK, "T -"), (TICK, "T -"), (TICK, "T -"),
         (ask(0), "G 4")),

    # Frame 0 is slot 0 alone, which is current; frame 1 is newest, and after
    # the grant C is 0.
    edge("F = 1, W = 2", plan(1, 2, (1, 1)),
         (ask(0), "G 1"),
         (ask(0), "R 11")),
]

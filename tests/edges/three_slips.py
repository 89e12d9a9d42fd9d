"""Three slips that a sparse flight would not show: a credit tested at its own
position only, the last frame not gone round, a holding dropped with its frame.
These cases tell each from rules 7.1, 3.3 and 8.2."""

from edges.edge_maker import TICK, ask, credit, edge, plan

EDGES = [
    # Slip 1 (rule 7.1), in one window.  After the credit dated 5 the flow
    # holds 1 at slots 1 to 4 and 0 from 5 on.  A credit dated 2 finds 1 at
    # slot 2, but would leave -1 from 5 on.
    edge("slip 1: a later cell is back already", plan(4, 2, (2, 2)),
         (ask(0), "G 1"),
         (credit(0, 5), "C"),
         (credit(0, 2), "R 15"),
         (ask(0), "G 2")),

    # Slip 1, across a frame change and going round.  At slot 4 the window is
    # slots 4 to 11; positions 0 to 3 are slots 8 to 11.
    edge("slip 1: the later cell lies past T - 1", plan(4, 2, (2, 2)),
         (ask(0), "G 1"),
         (TICK, "T 0"), (TICK, "T -"), (TICK, "T -"), (TICK, "T -"),
         (ask(0), "G 5"),           # IF moved to frame 1; 4 is current
         (credit(0, 1), "C"),       # slot 9: 2 held, 1 left
         (credit(0, 1), "C"),       # slot 9: 1 held, 0 left
         (credit(0, 6), "R 15"),    # 2 at slots 6 to 8, but 0 from 9 on
         (ask(0), "G 1")),          # full up to slot 8, so slot 9

    # The positions to test are the later ones, not the higher numbers: at
    # slot 7 position 1 is slot 9, and positions 4 to 7 are not later.
    edge("slip 1: higher positions that are not later", plan(4, 2, (2, 2)),
         *[(TICK, "T -")] * 7,
         (ask(0), "G 0"),           # nothing later in frame 1; slot 8
         (credit(0, 1), "C"),       # holds 1 from slot 8 on
         (credit(0, 0), "R 15")),   # slot 8 holds 1, slot 9 holds 0

    # Slip 2 (rule 3.3).  After the change the newest frame is slots 8 to 11,
    # positions 0 to 3: the walk has to go on past position 7.
    edge("slip 2: the newest frame is at position 0", plan(4, 2, (1, 9)),
         (ask(0), "G 1"), (ask(0), "G 4"), (ask(0), "R 11"),
         (TICK, "T 0"), (TICK, "T -"), (TICK, "T -"), (TICK, "T 0"),
         (ask(0), "G 0"),           # slot 8
         (ask(0), "R 11"),
         (TICK, "T -"), (TICK, "T -"), (TICK, "T -"), (TICK, "T 0")),

    # Slip 2 with three frames and a second flow whose walk begins below T and
    # ends past it.  Frame f is slots 2f and 2f + 1; T = 6.
    edge("slip 2: a walk from frame 2 to frame 4", plan(2, 3, (1, 9), (1, 9)),
         (ask(0), "G 1"), (ask(0), "G 2"), (ask(0), "G 4"), (ask(0), "R 11"),
         (TICK, "T 0"), (TICK, "T 0"),
         (ask(0), "G 0"),           # slot 6, first of frame 3
         (ask(0), "R 11"),
         (TICK, "T -"), (TICK, "T 0"),
         (ask(0), "G 2"),           # slot 8, first of frame 4
         (ask(1), "G 5"),           # moved to frame 2 by two changes; 4 is CP
         (ask(1), "G 1"),           # slot 7, as 6 is booked
         (ask(1), "G 3"),           # slot 9, as 8 is booked
         (ask(1), "R 11"),
         (TICK, "T 1"), (TICK, "T 0"), (TICK, "T 1"), (TICK, "T 0"),
         (TICK, "T 1"), (TICK, "T -")),

    # Slip 3 (rule 8.2).  Both cells were taken in frame 0 and never came
    # back, so they are still held when frame 0's positions come again as
    # slots 8 to 11.
    edge("slip 3: holdings go on past a frame change", plan(4, 2, (2, 2)),
         (ask(0), "G 1"), (ask(0), "G 2"),
         (TICK, "T 0"), (TICK, "T 0"), (TICK, "T -"), (TICK, "T -"),
         (ask(0), "R 12"),          # 2 held everywhere
         (credit(0, 3), "C"),       # slot 11: 1 left
         (ask(0), "G 3"),           # slots 8 to 10 still hold 2
         (credit(0, 2), "C"),       # slot 10: 2 held, and 2 at slot 11
         (credit(0, 2), "C"),       # 1 held at both
         (credit(0, 2), "R 15")),   # 0 held at both

    # Slip 3 once round (rule 4.4): what was booked in a frame that is over
    # counts until it is given back.
    edge("slip 3: a cell given back after going round", plan(2, 2, (1, 1)),
         (ask(0), "G 1"),
         (TICK, "T 0"), (TICK, "T -"), (TICK, "T -"), (TICK, "T -"),
         (TICK, "T -"),             # slot 5, position 1 again, now empty
         (ask(0), "R 12"),          # one cell, still held
         (credit(0, 2), "C"),       # slot 6
         (credit(0, 2), "R 15"),
         (ask(0), "G 2")),          # slot 6
]

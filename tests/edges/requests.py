"""Edges of request: its refusals 8 to 12, and which slot is booked.  Those of
the departure and of the quantum number have files of their own."""

from call_bytes import request
from edges.edge_maker import BASE, TICK, ask, credit, edge, plan

REFUSED_WORDS = [
    # Rules 1.3 and 5.2: flow before destination before departure; nothing
    # of it changes the link, so the next good request gets what a fresh link
    # gives.
    edge("refusals 8 to 10 in order", BASE,
         (ask(2), "R 8"), (ask(32), "R 8"), (ask(63), "R 8"),
         (ask(2, to=8, departure=8), "R 8"),
         (ask(0, to=8), "R 9"), (ask(0, to=10), "R 9"),
         (ask(1, to=8, departure=8), "R 9"),
         (ask(1, departure=8), "R 10"),
         (ask(1), "G 1"), (ask(0), "G 2")),

    # Rule 2.1: the destination tested is the one of the word's own flow.
    edge("each flow its own destination",
         bytes.fromhex("14 00 02 00 0C 00 04 00 02 00 04 00"
                       "02 02 01 05 02 02 01 06"),
         (request(5, 1), "R 9"), (request(6, 0), "R 9"),
         (request(6, 1), "G 1"), (request(5, 0), "G 2")),
]

BOOKED_SLOTS = [
    # Rule 8.2: a flow left at the old head gets a full share in the next
    # frame.
    edge("C is the share again after a frame change", plan(4, 2, (1, 4)),
         (ask(0), "G 1"),           # C is 0 now, IF still 0
         (TICK, "T 0"), (TICK, "T -"), (TICK, "T -"), (TICK, "T -"),
         (ask(0), "G 5"),           # IF = 1 with C = 1; slot 4 is current
         (ask(0), "G 0"),           # slot 8, newest
         (ask(0), "R 11")),

    # The same where C was not used up: the rest of frame 0 is lost, and
    # frame 1 has the whole share of 2.
    edge("a rest of C is lost at a frame change", plan(4, 2, (2, 9)),
         (ask(0), "G 1"),           # C is 1
         (TICK, "T 0"), (TICK, "T -"), (TICK, "T -"), (TICK, "T -"),
         (ask(0), "G 5"), (ask(0), "G 6"),
         (ask(0), "G 0"), (ask(0), "G 1"),      # slots 8 and 9
         (ask(0), "R 11")),

    # A flow that is already ahead of the old head keeps its frame and C.
    edge("C is kept by a flow that is ahead", plan(4, 2, (2, 8)),
         (ask(0), "G 1"), (ask(0), "G 2"), (ask(0), "G 4"),
         (TICK, "T 0"), (TICK, "T 0"), (TICK, "T -"), (TICK, "T 0"),
         (ask(0), "G 5"),           # the second of frame 1, C is 0 now
         (ask(0), "G 0"), (ask(0), "G 1"),      # slots 8 and 9
         (ask(0), "R 11")),

    # Rule 6.6: 12 leaves IF newest with a full C: a credit dated early
    # doesn't bring the frames between back.  Frames are slots 2f and 2f + 1.
    edge("after 12 only the newest frame is left", plan(2, 4, (1, 1)),
         (ask(0), "G 1"),
         (ask(0), "R 12"),          # full in frames 1 to 3
         (credit(0, 2), "C"),
         (ask(0), "G 6"),           # frame 3, not slot 2
         (ask(0), "R 11"),          # C is 0 in the newest frame
         (TICK, "T 0"), (TICK, "T -"),
         (ask(0), "R 12")),         # frame 4: slot 6 holds the cell

    # Rule 6.2: valid positions begin where the flow is no longer full, so a
    # later credit can make an earlier position of the same frame valid again.
    edge("an earlier position after a later one", plan(8, 2, (4, 2)),
         (ask(0), "G 1"), (ask(0), "G 2"),
         (credit(0, 6), "C"),       # 2 held at 2 to 5, 1 from 6 on
         (ask(0), "G 6"),           # 2 held from 2 on
         (credit(0, 3), "C"),       # 2 at slot 2, 1 from 3 on
         (ask(0), "G 3"),
         (ask(0), "R 12")),         # frame 1, full

    # Rule 6.5: a slot that is booked has an owner, and costs one of C; the
    # flows alternate, 11 at the end for both.
    edge("two flows share two frames", plan(3, 2, (1, 9), (2, 9)),
         (ask(0), "G 1"), (ask(1), "G 2"),
         (ask(1), "G 3"),           # frame 0 is full; C was 1, now 2 less 1
         (ask(0), "G 4"),           # C was 0; 3 is booked
         (ask(1), "G 5"),
         (ask(1), "R 11"), (ask(0), "R 11"),
         (TICK, "T 0"), (TICK, "T 1"), (TICK, "T 1"), (TICK, "T 0"),
         (TICK, "T 1"), (TICK, "T -")),
]

# The largest window, all of it one flow's, with the most cells a flow can
# have: slots 1 to 255 take all 255 of them, 64 in frame 3, so C is 0 there.
FULL_WINDOW = edge(
    "255 cells in a window of 256", plan(64, 4, (64, 255)),
    *[(ask(0), "G %d" % slot) for slot in range(1, 256)],
    (ask(0), "R 11"),
    *[(TICK, "T 0")] * 63,
    (ask(0), "R 11"),               # slot 63: frame 3 is still newest
    (TICK, "T 0"),                  # slot 64, a frame change
    (ask(0), "R 12"),               # slots 256 to 319: all cells held
    (credit(0, 0), "C"),            # slot 256
    (ask(0), "G 0"),
    (ask(0), "R 12"))

EDGES = REFUSED_WORDS + BOOKED_SLOTS + [FULL_WINDOW]

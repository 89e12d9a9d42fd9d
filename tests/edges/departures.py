"""Edges of the word's departure (rules 6.3 and 6.4): what has not come is not
sent on.  Refusal 20 stands between 11 and 12.
"""

from edges.edge_maker import BASE, TICK, ask, credit, edge, plan

TWO = plan(4, 2, (2, 9))                # T = 8, one flow; so below
ONE_CELL = plan(4, 2, (2, 1))
ONE_SHARE = plan(4, 2, (1, 8))
FOUR_FRAMES = plan(2, 4, (1, 9))        # frame f is slots 2f and 2f + 1

# (plan, ticks, what an untouched flow is granted for departures 0 to T - 1)
POSITIONS = [
    # Rule 6.3: slot 0 alone has come; the first later position is 1.
    (TWO, 0, "G 1, G 2, G 3, G 4, G 5, G 6, G 7, R 20"),
    # 0 and 1 lie before CP in the head frame, 2 is CP.
    (TWO, 2, "G 3, G 3, G 3, G 4, G 5, G 6, G 7, R 20"),
    # The head frame has nothing left; 0 to 3 have come.
    (TWO, 3, "G 4, G 4, G 4, G 4, G 5, G 6, G 7, R 20"),
    # The head frame is positions 4 to 7, and 0 to 3 are slots 8 to 11: none
    # of them has come, though slots 0 to 3 have gone by.
    (TWO, 4, "G 1, G 2, G 3, R 20, G 5, G 6, G 7, G 0"),
    (TWO, 5, "G 1, G 2, G 3, R 20, G 6, G 6, G 7, G 0"),
    (TWO, 7, "G 1, G 2, G 3, R 20, G 0, G 0, G 0, G 0"),
    # Once round: as on a fresh link, and two slots on.
    (TWO, 8, "G 1, G 2, G 3, G 4, G 5, G 6, G 7, R 20"),
    (TWO, 10, "G 3, G 3, G 3, G 4, G 5, G 6, G 7, R 20"),
    # Three frames of two slots, slot 3 current: head 2 and 3, then 4 and 5,
    # then positions 0 and 1, which are slots 6 and 7.
    (plan(2, 3, (1, 9)), 3, "G 1, R 20, G 4, G 4, G 5, G 0"),
    # Every frame is one slot, slot 5 current: the window is slots 5 to 8.
    (plan(1, 4, (1, 9)), 5, "R 20, G 2, G 3, G 0"),
    # No departure has come but CP, and of two positions the other is newest.
    (plan(1, 2, (1, 4)), 0, "G 1, R 20"),
    (plan(1, 2, (1, 4)), 1, "R 20, G 0"),
]


def one_departure(plan_bytes, ticks, departure, line):
    frame_slots, window_frames = plan_bytes[6], plan_bytes[8]
    return edge("departure: %d of F = %d, W = %d after %d ticks" % (
                    departure, frame_slots, window_frames, ticks),
                plan_bytes, *[(TICK, "T -")] * ticks,
                (ask(0, departure), line))


EACH_POSITION = [one_departure(plan_bytes, ticks, departure, line)
                 for plan_bytes, ticks, lines in POSITIONS
                 for departure, line in enumerate(lines.split(", "))]

FRAMES_LEFT_BEHIND = [
    # Slot 5 is in frame 2: frames 0 and 1 are skipped, and their shares lost.
    # Frames 4 and 5 come in with a share each, positions 0 and 2.
    edge("departure: two frames are skipped", FOUR_FRAMES,
         (ask(0, departure=4), "G 5"),
         (ask(0), "G 6"), (ask(0), "R 11"),
         (TICK, "T -"), (TICK, "T -"),
         (ask(0), "G 0"), (ask(0), "R 11"),     # slot 8
         (TICK, "T -"), (TICK, "T -"),
         (ask(0), "G 2"), (ask(0), "R 11"),     # slot 10
         *[(TICK, line) for line in ("T 0", "T 0", "T -", "T 0", "T -",
                                     "T 0")]),
    edge("departure: none is skipped", FOUR_FRAMES,
         (ask(0), "G 1"), (ask(0), "G 2"), (ask(0), "G 4"), (ask(0), "G 6"),
         (ask(0), "R 11")),

    # Slot 3 is the last of frame 1, so that slot 4 begins the search.
    edge("departure: the last slot of a frame", FOUR_FRAMES,
         (ask(0, departure=3), "G 4"), (ask(0), "G 6"), (ask(0), "R 11")),

    edge("departure: every slot is a frame", plan(1, 8, (1, 9)),
         (ask(0, departure=3), "G 4"),
         (ask(0), "G 5"), (ask(0, departure=6), "G 7"), (ask(0), "R 11")),

    # 20 leaves all frames but the newest behind.
    edge("departure: 20 skips to the newest frame", FOUR_FRAMES,
         (ask(0, departure=7), "R 20"), (ask(0), "G 6"), (ask(0), "R 11")),

    # C is 1 in frame 0, and lost; frame 1 has the share of 2.
    edge("departure: a rest of C is lost", TWO,
         (ask(0), "G 1"), (ask(0, departure=4), "G 5"),
         (ask(0), "G 4"), (ask(0), "R 11")),

    # IF is past the departure already, or the departure lies in it.
    edge("departure: in a frame before IF", plan(4, 3, (1, 9)),
         (ask(0), "G 1"), (ask(0), "G 4"),
         (ask(0, departure=2), "G 8"), (ask(0, departure=2), "R 11")),
    edge("departure: in IF", plan(4, 3, (2, 9)),
         (ask(0, departure=4), "G 5"), (ask(0, departure=6), "G 7"),
         (ask(0, departure=7), "G 8"), (ask(0, departure=9), "G 10"),
         (ask(0, departure=10), "R 11")),

    # The window is slots 128 to 383; position 64 is slot 320, in its last
    # frame, and 63 is slot 319.
    edge("departure: 64 slots to a frame, going round", plan(64, 4, (2, 9)),
         *[(TICK, "T -")] * 128,
         (ask(0, departure=254), "G 255"),      # frame 3
         (ask(0, departure=63), "G 64"), (ask(0, departure=126), "G 127"),
         (ask(0, departure=127), "R 11")),
]

THIS_REQUEST_ALONE = [
    edge("departure: an earlier position after a later one", BASE,
         (ask(0, departure=5), "G 6"),
         (ask(0, departure=0), "G 4"),          # IF stays at frame 1
         (ask(1), "G 1")),
    edge("departure: a position of IF that was passed over",
         plan(4, 2, (4, 9)),
         (ask(0, departure=2), "G 3"), (ask(0), "G 1"), (ask(0), "G 2"),
         (ask(0), "G 4")),
    edge("departure: after 20", BASE,
         (ask(0, departure=7), "R 20"),
         (ask(1, departure=0), "G 1"),          # the other flow's IF is 0
         (ask(0, departure=0), "G 4")),

    # A credit is counted where the slot was booked, and a tick answers there.
    edge("departure: credit and tick", BASE,
         (ask(0, departure=5), "G 6"),
         (credit(0, 5), "R 15"), (credit(0, 6), "C"), (credit(0, 6), "R 15"),
         *[(TICK, "T -")] * 5, (TICK, "T 0"), (TICK, "T -")),
]

REFUSED = [
    # Flow, destination and T are tested first, and change nothing.
    edge("departure: 8, 9 and 10 before 20", BASE,
         (ask(2, departure=7), "R 8"), (ask(0, departure=7, to=8), "R 9"),
         (ask(0, departure=8), "R 10"),
         (ask(0), "G 1")),

    # Rule 6.4: C is 0 in the newest frame: 11, whatever the departure.
    edge("departure: 11 before 20", ONE_SHARE,
         (ask(0), "G 1"), (ask(0), "G 4"),
         (ask(0, departure=7), "R 11"), (ask(0, departure=4), "R 11")),

    # C is 0 in frame 0, but the search comes to frame 1 with the share.
    edge("departure: 20, and then 11", ONE_SHARE,
         (ask(0), "G 1"), (ask(0, departure=7), "R 20"),
         (ask(0), "G 4"), (ask(0, departure=7), "R 11")),

    # The only cell is held from slot 1 on: without the departure there would
    # be no valid position either.  At slot 2 departure 0 lies before CP.
    edge("departure: 12 where the cells are held", ONE_CELL,
         (ask(0), "G 1"),
         (ask(0, departure=7), "R 12"), (ask(0, departure=4), "R 12"),
         (ask(0), "R 12"),
         (TICK, "T 0"), (TICK, "T -"),
         (ask(0, departure=0), "R 12"), (ask(0, departure=3), "R 12")),

    # The cell is back from slot 6 on, so that 6 and 7 would be valid; at the
    # end it is held at 7, and 6 is not valid either.
    edge("departure: 12, then 20, then 12", ONE_CELL,
         (ask(0, departure=2), "G 3"), (ask(0, departure=7), "R 12"),
         (credit(0, 6), "C"),
         (ask(0, departure=7), "R 20"), (ask(0, departure=6), "G 7"),
         (ask(0, departure=7), "R 12"), (ask(0, departure=0), "R 12")),

    # Slot 2 is flow 1's: of frame 1 only the departure's own slot is left.
    edge("departure: its own slot is the last one left",
         plan(2, 2, (1, 9), (1, 9)),
         (ask(1), "G 1"), (ask(1), "G 2"),
         (ask(0, departure=3), "R 20"), (ask(0, departure=2), "G 3"),
         (ask(0, departure=3), "R 11")),

    # Departures in frames that aren't newest, with the cell held: 12.  Slot 9
    # is free from the credit on, after both departures.
    edge("departure: 12 for departures of earlier frames",
         plan(4, 3, (1, 1)),
         (ask(0), "G 1"),
         (ask(0, departure=2), "R 12"), (ask(0, departure=6), "R 12"),
         (credit(0, 9), "C"),
         (ask(0, departure=6), "G 9")),

    # 20 uses nothing up, and leaves C as the share of the newest frame.
    edge("departure: 20 again and again", TWO,
         *[(ask(0, departure=7), "R 20")] * 3,
         (ask(0), "G 4"), (ask(0, departure=7), "R 20"), (ask(0), "G 5"),
         (ask(0, departure=7), "R 11")),

    # IF is frame 1 when that becomes the head, with C untouched.
    edge("departure: 20 and a frame change", TWO,
         (ask(0, departure=7), "R 20"), *[(TICK, "T -")] * 4,
         (ask(0), "G 5"), (ask(0), "G 6"),
         (ask(0), "G 0"), (ask(0), "G 1"), (ask(0), "R 11")),
]

# Slots 3 and 7 have gone by, but their positions are the newest frame's last.
# Two slots are granted in frames 0 to 2, and three would be the least for
# tiles that have come.
GONE_BY = edge(
    "departure: the slot has gone by", ONE_SHARE,
    (ask(0), "G 1"), (ask(0), "G 4"), (ask(0), "R 11"),
    (TICK, "T 0"), (TICK, "T -"), (TICK, "T -"), (TICK, "T 0"),
    (ask(0, departure=3), "R 20"),
    *[(TICK, "T -")] * 4,
    (ask(0, departure=7), "R 20"))

# A flow that booked a late slot holds its cell there, but not before.
EVERY_LATER_POSITION = [
    edge("departure: a full later position", ONE_CELL,
         (ask(0, departure=1), "G 2"),
         (ask(0), "R 12")),                     # 0 held at slot 1, 1 at 2

    edge("departure: a full later position of the newest frame",
         plan(4, 2, (3, 2)),
         (ask(0, departure=5), "G 6"), (ask(0, departure=6), "G 7"),
         (ask(0), "R 12"),                      # 0 held at 4 and 5, 2 at 7
         (credit(0, 7), "C"),
         (ask(0), "G 4")),

    # Slots 8 to 11 are the newest frame; 10 is position 2.
    edge("departure: a full later position, going round", ONE_CELL,
         *[(TICK, "T -")] * 4,
         (ask(0, departure=1), "G 2"),
         (ask(0), "R 12"), (ask(0, departure=3), "R 12"),
         (credit(0, 2), "C"),
         (ask(0, departure=3), "R 20"), (ask(0), "G 0")),
]

# Rules 1.1, 6.7 and 21.12, two boards that tick in step: the first's granted
# positions are the second's departures.  Slots 1, 2, 4, 5, 8 and 9 on the
# first; each tile leaves the second in the slot after it came.
FIRST_BOARD = edge(
    "two boards: the first", BASE,
    (ask(0), "G 1"), (ask(0), "G 2"), (ask(0), "R 12"),
    (TICK, "T 0"), (TICK, "T 0"), (TICK, "T -"),
    (credit(0, 4), "C"), (credit(0, 4), "C"),
    (ask(0), "G 4"), (ask(0), "G 5"),           # 12 left IF at frame 1
    (TICK, "T 0"), (TICK, "T 0"), (TICK, "T -"),
    (credit(0, 7), "C"), (credit(0, 7), "C"),
    (ask(0), "G 0"), (ask(0), "G 1"),           # slots 8 and 9
    (TICK, "T -"), (TICK, "T 0"), (TICK, "T 0"), (TICK, "T -"))
SECOND_BOARD = edge(
    "two boards: the second", BASE,
    (ask(0, departure=1), "G 2"), (ask(0, departure=2), "G 3"),
    (TICK, "T -"), (TICK, "T 0"), (TICK, "T 0"),
    (credit(0, 4), "C"), (credit(0, 4), "C"),
    (ask(0, departure=4), "G 5"), (ask(0, departure=5), "G 6"),
    (TICK, "T -"), (TICK, "T 0"), (TICK, "T 0"),
    (credit(0, 7), "C"), (credit(0, 7), "C"),
    (ask(0, departure=0), "G 1"), (ask(0, departure=1), "G 2"),
    (TICK, "T -"), (TICK, "T -"), (TICK, "T 0"), (TICK, "T 0"))

EDGES = (EACH_POSITION + FRAMES_LEFT_BEHIND + THIS_REQUEST_ALONE + REFUSED
         + [GONE_BY] + EVERY_LATER_POSITION + [FIRST_BOARD, SECOND_BOARD])

"""Edges of lend, for allcalls: its refusals 8, 17 and 18, which flows can
take the slot, and what is held after it.

Where a mask has several flows, only one of them can take the slot, but for
one edge; turns.py has more of these.
"""

from edges.edge_maker import BASE, TICK, ask, credit, edge, lend, plan

ONE_CELL = plan(4, 2, (2, 1))           # T = 8, one flow
EIGHT_CELLS = plan(4, 2, (1, 8))
SINGLE_SLOT = plan(1, 2, (1, 4))        # every tick is a frame change
SIXTEEN = plan(16, 2, *[(1, 1)] * 16)

REFUSED = [
    # The current slot is slot 0, which nobody booked: it is lent once, and
    # not at all while it is booked.  Rule 8.1: a tick ends the mark.
    edge("lend: 17 at a lent and at a booked slot", BASE,
         (lend(1), "L 0"), (lend(2), "R 17"), (lend(1), "R 17"),
         (ask(0), "G 1"),
         (lend(2), "R 17"),         # a request leaves the mark
         (credit(0, 4), "C"),
         (lend(2), "R 17"),         # and so does a credit
         (TICK, "T 0"),
         (lend(2), "R 17"),         # slot 1 is booked
         (TICK, "T -"),
         (lend(2), "L 1")),

    # No flow of an empty mask can take it; 17 is tested before that, and 8
    # before 17.
    edge("lend: an empty mask", BASE,
         (lend(0), "R 18"),
         (ask(0), "G 1"), (TICK, "T 0"),
         (lend(4), "R 8"), (lend(0), "R 17")),

    # Rule 9.2: slot 1 is booked, and flow 0 holds both of its cells from slot
    # 2 on.  Each mask with a bit at 2 or above is 8; nothing of it changes
    # the link.
    edge("lend: refusals 8, 17 and 18 in order", BASE,
         (ask(0), "G 1"), (ask(0), "G 2"),
         (lend(5), "R 8"), (lend(1), "R 18"),
         (TICK, "T 0"),
         (lend(4), "R 8"), (lend(7), "R 8"), (lend(256), "R 8"),
         (lend(0x8001), "R 8"), (lend(0xffff), "R 8"), (lend(0xfffc), "R 8"),
         (lend(1), "R 17"), (lend(3), "R 17"),
         (ask(1), "G 3"), (TICK, "T 0"), (TICK, "T 1"), (TICK, "T -"),
         (lend(1), "R 18"), (lend(3), "L 1")),

    # With sixteen flows a mask has no bit at n or above.
    edge("lend: sixteen flows", SIXTEEN,
         (lend(0x8000), "L 15"), (lend(0xffff), "R 17"),
         (TICK, "T -"),
         (lend(0x8000), "R 18"), (lend(0x0100), "L 8"),
         (TICK, "T -"),
         (lend(0x8100), "R 18"), (lend(0x8180), "L 7")),

    # One flow: every bit but the lowest is 8.
    edge("lend: one flow", ONE_CELL,
         (lend(2), "R 8"), (lend(3), "R 8"), (lend(0x8000), "R 8"),
         (lend(1), "L 0")),
]

WHO_CAN_TAKE = [
    # Rule 9.1: 0 is held at slot 0, but the only cell from slot 1 on.
    edge("lend: all cells held later", ONE_CELL,
         (ask(0), "G 1"), (lend(1), "R 18")),

    # Slot 2 is unbooked and holds the cell, which is back from slot 3 on.
    edge("lend: all cells held at the current slot only", ONE_CELL,
         (ask(0), "G 1"), (TICK, "T 0"), (TICK, "T -"),
         (credit(0, 3), "C"),
         (lend(1), "R 18"),
         (TICK, "T -"),
         (lend(1), "L 0")),

    # Slot 1 holds the cell, but has gone by: it is neither current nor later.
    edge("lend: all cells held at a passed slot", ONE_CELL,
         (ask(0), "G 1"), (TICK, "T 0"), (credit(0, 2), "C"), (TICK, "T -"),
         (lend(1), "L 0"), (lend(1), "R 17")),

    # 2 are held at slots 2 to 4 and 1 from slot 5 on; then one less of each.
    edge("lend: all cells held in between", BASE,
         (ask(0), "G 1"), (ask(0), "G 2"),
         (lend(1), "R 18"),
         (credit(0, 5), "C"),
         (lend(1), "R 18"),
         (credit(0, 2), "C"),
         (lend(1), "L 0")),

    # At slot 7 the later slots are 8 to 11, positions 0 to 3.
    edge("lend: all cells held past T - 1", ONE_CELL,
         *[(TICK, "T -")] * 7,
         (ask(0), "G 0"),           # slot 8
         (lend(1), "R 18"),
         (credit(0, 0), "C"),       # slot 8
         (lend(1), "L 0"),          # the lent cell is held from slot 7 on
         (TICK, "T 0"),
         (lend(1), "R 17"),
         (TICK, "T -"),
         (lend(1), "R 18")),        # 2 taken, 1 given back

    # The last slot of the window alone is full: T - 1 on a fresh link.
    edge("lend: all cells held at the last slot", plan(2, 2, (1, 1), (1, 9)),
         (ask(1), "G 1"), (ask(1), "G 2"),
         (ask(0), "G 3"),           # 1 and 2 are booked
         (lend(1), "R 18"),
         (credit(0, 3), "C"),
         (lend(1), "L 0")),

    # It is refused only if the whole mask has no flow for it, and a flow that
    # is not in the mask doesn't get it.
    edge("lend: one flow of the mask can take it",
         plan(4, 2, (1, 1), (1, 2), (1, 1)),
         (ask(0), "G 1"), (ask(2), "G 2"),
         (lend(5), "R 18"),         # flow 1 could, flows 0 and 2 can't
         (lend(7), "L 1"),
         (TICK, "T 0"), (TICK, "T 2"), (TICK, "T -"),
         (lend(7), "L 1"),
         (TICK, "T -"),
         (lend(7), "R 18")),        # flow 1 has both cells lent

    # At slot 2 flow 1 holds its cell, which is back from slot 3 on; flow 0
    # holds its own from slot 3 on.  Neither can take it.
    edge("lend: one flow full now and one later", plan(4, 2, (1, 1), (1, 1)),
         (ask(1), "G 1"), (TICK, "T 1"), (TICK, "T -"),
         (credit(1, 3), "C"), (ask(0), "G 3"),
         (lend(1), "R 18"), (lend(2), "R 18"), (lend(3), "R 18"),
         (TICK, "T 0"), (TICK, "T -"),
         (lend(3), "L 1")),

    # Both flows can take it, and it is flow 0's turn.
    edge("lend: both flows can take it", BASE,
         (lend(3), "L 0"), (lend(3), "R 17"), (TICK, "T -")),

    # The highest of sixteen is the only one with a cell left.
    edge("lend: the highest flow alone can take it",
         plan(16, 2, *[(1, 1)] * 15, (1, 2)),
         *[(ask(flow), "G %d" % (flow + 1)) for flow in range(15)],
         (lend(0x7fff), "R 18"), (lend(0xffff), "L 15")),
]

WHAT_IS_HELD = [
    # Rule 9.4: a lent slot is no booking: C and IF stay, so that the share
    # of each frame is still there.
    edge("lend: the share is not used", EIGHT_CELLS,
         (lend(1), "L 0"),
         (ask(0), "G 1"), (ask(0), "G 4"), (ask(0), "R 11")),

    # The holding rises from the current slot on.  A credit dated the current
    # slot is 14; the lent cell is back from slot 1 on, once.
    edge("lend: a credit gives the lent cell back", BASE,
         (lend(1), "L 0"),
         (credit(0, 0), "R 14"), (credit(0, 1), "C"), (credit(0, 1), "R 15"),
         (credit(1, 1), "R 15")),

    # One cell lent, one booked: the flow is full from slot 1 on.
    edge("lend: a lent cell counts for requests", BASE,
         (lend(1), "L 0"),
         (ask(0), "G 1"), (ask(0), "R 12"),
         (credit(0, 4), "C"),
         (ask(0), "G 4")),

    # The one cell is lent: a request finds no valid position, so the least
    # of (W - 1) x share grants can't be had.
    edge("lend: the only cell is lent", ONE_CELL,
         (lend(1), "L 0"), (ask(0), "R 12")),

    # A lend has no departure.  While the cell is lent the newest frame has no
    # valid position, with the word's departure or without it.
    edge("lend: 20 before it and 12 after it", ONE_CELL,
         (ask(0, departure=7), "R 20"),
         (lend(1), "L 0"),
         (ask(0, departure=7), "R 12"),
         (credit(0, 4), "C"),
         (ask(0, departure=7), "R 20"), (ask(0), "G 4")),

    # Nobody booked the lent slot, so it doesn't come up when its position
    # comes again; two cells are lent then.
    edge("lend: a lent slot doesn't come up", BASE,
         (lend(1), "L 0"),
         *[(TICK, "T -")] * 8,
         (lend(1), "L 0"), (TICK, "T -"), (lend(1), "R 18")),

    # Its position can be booked in the frame that comes next: slot 8.
    edge("lend: the position of a lent slot is booked", plan(4, 2, (4, 9)),
         (lend(1), "L 0"),
         *[(TICK, "T -")] * 4,
         (ask(0), "G 5"), (ask(0), "G 6"), (ask(0), "G 7"), (ask(0), "G 0"),
         *[(TICK, "T 0")] * 4,
         (lend(1), "R 17")),

    # Lent cells go on past frame changes, one in each slot; slot 4 is
    # position 0, and the credit is dated slot 5.
    edge("lend: lent cells past frame changes", SINGLE_SLOT,
         *[(lend(1), "L 0"), (TICK, "T -")] * 4,
         (lend(1), "R 18"),         # slot 4: 4 held
         (credit(0, 1), "C"),
         (lend(1), "R 18"),         # still 4 at slot 4
         (TICK, "T -"),
         (lend(1), "L 0"), (lend(1), "R 17")),

    # What is full stays full when its frame is recycled.
    edge("lend: a booked cell past a frame change", ONE_CELL,
         (ask(0), "G 1"), (TICK, "T 0"), *[(TICK, "T -")] * 3,
         (lend(1), "R 18"),         # slot 4, the new head
         (credit(0, 3), "C"),       # slot 11
         (lend(1), "R 18"),         # 1 held at slots 4 to 10
         *[(TICK, "T -")] * 7,
         (lend(1), "L 0")),         # slot 11

    # The last slot of a frame is lent, then the first of the next.
    edge("lend: on both sides of a frame change", plan(2, 2, (1, 2)),
         (TICK, "T -"), (lend(1), "L 0"), (TICK, "T -"), (lend(1), "L 0"),
         (lend(1), "R 17"),
         (ask(0), "R 12"),          # both cells are lent
         (credit(0, 3), "C"),       # 2 held at slot 2, 1 from slot 3 on
         (ask(0), "G 0")),          # 12 left IF at frame 2, slots 4 and 5

    # The most cells that a flow can have, all of them lent.
    edge("lend: 255 lent cells", plan(1, 2, (1, 255)),
         *[(lend(1), "L 0"), (TICK, "T -")] * 255,
         (lend(1), "R 18"), (ask(0), "R 12")),
]

RECORDS = [
    # Rules 14.1 and 14.2: the mask has its low byte first; a filler that is
    # not 0 is tested before the mask, and makes no lend.
    edge("lend: fillers", BASE,
         (lend(1, fillers=(1, 0)), "R 16"), (lend(1, fillers=(0, 1)), "R 16"),
         (lend(0xffff, fillers=(255, 255)), "R 16"),
         (lend(0, fillers=(0, 128)), "R 16"),
         (bytes([4, 0, 1, 0, 0]), "R 8"),
         (bytes([4, 1, 0, 0, 0]), "L 0"), (bytes([4, 2, 0, 0, 1]), "R 16")),

    # The high byte of the mask: bit 9 is for flow 9.
    edge("lend: the high byte of the mask", SIXTEEN,
         (bytes([4, 0, 2, 0, 0]), "L 9"), (TICK, "T -"),
         (bytes([4, 0, 2, 0, 0]), "R 18"), (bytes([4, 2, 0, 0, 0]), "L 1")),

    # Of the kinds that domelink has not, allcalls has three.
    edge("lend: other kinds", BASE,
         (bytes([0, 1, 0, 0, 0]), "R 16"), (bytes([5, 1, 0, 0, 0]), "R 16"),
         (bytes([7, 0, 0, 0, 0]), "R 16"), (bytes([68, 1, 0, 0, 0]), "R 16"),
         (bytes([132, 1, 0, 0, 0]), "R 16"), (bytes([255] * 5), "R 16"),
         (lend(1), "L 0")),

    edge("lend: a last record of 4 bytes", BASE,
         (lend(1), "L 0"), (TICK, "T -"), (lend(1)[:4], "R 16")),
    edge("lend: a last record of 1 byte", BASE, (lend(1)[:1], "R 16")),
]

EDGES = REFUSED + WHO_CAN_TAKE + WHAT_IS_HELD + RECORDS

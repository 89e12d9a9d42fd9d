"""Edges of the local reset, for allcalls: when it is granted, what it leaves,
and where flows start after it."""

from edges.edge_maker import BASE, RESET, TICK, ask, credit, edge, lend, plan

EIGHT_CELLS = plan(4, 2, (1, 8))        # T = 8, one flow
ROOMY = plan(4, 2, (2, 8))
SINGLE_SLOT = plan(1, 2, (1, 4))        # every tick is a frame change
SIXTEEN = plan(16, 2, *[(1, 1)] * 16)

GRANTED = [
    # Rule 10.3: nothing changes, and slot 0, which nobody booked, is not
    # marked.
    edge("reset: a fresh link", BASE,
         (RESET, "Z"), (RESET, "Z"), (lend(1), "L 0")),
    edge("reset: requests on a fresh link", BASE,
         (RESET, "Z"),
         (ask(0), "G 1"), (ask(0), "G 2"), (ask(0), "R 12"), (ask(1), "G 3")),

    # Slot 1 is booked, and its cell is back from slot 1 on.  It is marked
    # until the tick, whatever comes between.
    edge("reset: the mark of a booked slot", BASE,
         (ask(0), "G 1"), (credit(0, 1), "C"), (TICK, "T 0"),
         (RESET, "Z"), (lend(1), "R 17"),
         (RESET, "Z"), (lend(1), "R 17"),       # it was marked already
         (TICK, "T -"), (lend(1), "L 0")),
    edge("reset: requests leave the mark", BASE,
         (ask(0), "G 1"), (credit(0, 1), "C"), (TICK, "T 0"),
         (RESET, "Z"), (ask(1), "G 2"), (credit(1, 2), "C"),
         (lend(1), "R 17"), (lend(4), "R 8"),
         (TICK, "T 1"), (RESET, "Z"), (lend(2), "R 17")),

    # Slot 1 was booked, but is not the current one.
    edge("reset: a passed slot was booked", BASE,
         (ask(0), "G 1"), (credit(0, 1), "C"), (TICK, "T 0"), (TICK, "T -"),
         (RESET, "Z"), (lend(2), "L 1")),

    # The slot that is lent after it is held: the next one is refused.
    edge("reset: lends and requests in the same slot", BASE,
         (TICK, "T -"), (RESET, "Z"),
         (lend(1), "L 0"), (ask(0), "G 2"), (ask(1), "G 3"),
         (RESET, "R 23"), (ask(0), "R 12"), (TICK, "T 0")),

    # A slot that was lent earlier, and whose cell is back.
    edge("reset: after a lend", BASE,
         (lend(1), "L 0"), (credit(0, 1), "C"), (TICK, "T -"),
         (RESET, "Z"), (lend(1), "L 0"), (RESET, "R 23")),

    # Slot 4 is the first of frame 1.
    edge("reset: right after a frame change", BASE,
         (ask(0), "G 1"), (credit(0, 1), "C"),
         (TICK, "T 0"), *[(TICK, "T -")] * 3,
         (RESET, "Z"), (ask(0), "G 5"), (ask(0), "G 6"), (ask(0), "R 12")),
]

REFUSED = [
    # Rule 10.1: slot 1 is booked, and nothing is held.  When it is current
    # it does not stand in the way.
    edge("reset: a later slot is booked and nothing held", BASE,
         (ask(0), "G 1"), (credit(0, 1), "C"), (RESET, "R 23"),
         (TICK, "T 0"), (RESET, "Z")),

    # The last slot of the window alone, slot 7, which is later until it is
    # current.
    edge("reset: the last slot is booked", BASE,
         (ask(1, departure=6), "G 7"), (credit(1, 7), "C"), (RESET, "R 23"),
         *[step for _ in range(6)
           for step in ((TICK, "T -"), (RESET, "R 23"))],
         (TICK, "T 1"), (RESET, "Z"), (lend(2), "R 17")),
    edge("reset: one cell is held at the last slot only", BASE,
         (ask(1, departure=6), "G 7"), (RESET, "R 23"),
         *[step for _ in range(6)
           for step in ((TICK, "T -"), (RESET, "R 23"))],
         (TICK, "T 1"), (RESET, "R 23"),
         (credit(1, 0), "C"),       # slot 8
         (RESET, "R 23"),           # still 1 at slot 7
         (TICK, "T -"), (RESET, "Z")),

    # At slot 4 position 0 is slot 8, which is later though its number is not.
    edge("reset: later goes round", BASE,
         *[(TICK, "T -")] * 4,
         (ask(0, departure=7), "G 0"), (credit(0, 0), "C"), (RESET, "R 23"),
         *[(TICK, "T -")] * 3, (RESET, "R 23"),
         (TICK, "T 0"), (RESET, "Z")),

    # 1 is held at slot 1 and 0 from slot 2 on; at slot 2 that is gone by.
    edge("reset: held at the current slot only", BASE,
         (ask(0), "G 1"), (credit(0, 2), "C"), (TICK, "T 0"),
         (RESET, "R 23"), (TICK, "T -"), (RESET, "Z")),

    # A lent slot is held until the tick, since no credit can be dated it.
    edge("reset: a lent slot", BASE,
         (lend(1), "L 0"), (RESET, "R 23"), (credit(0, 0), "R 14"),
         (credit(0, 1), "C"), (RESET, "R 23"), (TICK, "T -"), (RESET, "Z")),

    # Nothing is booked, and one cell held: from slot 1 on, then at slot 2.
    edge("reset: held with nothing booked", BASE,
         (ask(1), "G 1"), (TICK, "T 1"), (RESET, "R 23"),
         (TICK, "T -"), (RESET, "R 23"),
         (credit(1, 3), "C"), (RESET, "R 23"), (TICK, "T -"), (RESET, "Z")),

    # It holds on past frame changes.
    edge("reset: held past frame changes", BASE,
         (ask(0), "G 1"), (TICK, "T 0"), *[(TICK, "T -")] * 10,
         (RESET, "R 23"), (credit(0, 4), "C"),      # slot 12
         (RESET, "R 23"), (TICK, "T -"), (RESET, "Z")),

    # The last of sixteen flows counts too.
    edge("reset: the highest flow holds", SIXTEEN,
         (lend(0x8000), "L 15"), (RESET, "R 23"),
         (credit(15, 1), "C"), (TICK, "T -"), (RESET, "Z")),
    edge("reset: the last of 256 positions", plan(64, 4, (1, 1)),
         (ask(0, departure=254), "G 255"), (credit(0, 255), "C"),
         *[(TICK, "T -")] * 254, (RESET, "R 23"), (TICK, "T 0"), (RESET, "Z")),

    # IF stays newest, and the mark of the lent slot stands.
    edge("reset: refused, nothing changes", BASE,
         (ask(0, departure=7), "R 20"), (lend(2), "L 1"),
         (RESET, "R 23"), (lend(1), "R 17"), (ask(0), "G 4")),
]

WHERE_FLOWS_START = [
    # Rule 10.2: the refusal left IF at the newest frame, for each flow that
    # asked.
    edge("reset: IF becomes HF", BASE,
         (ask(0, departure=7), "R 20"), (RESET, "Z"), (ask(0), "G 1")),
    edge("reset: IF becomes HF, three frames", plan(4, 3, (1, 8)),
         (ask(0, departure=11), "R 20"), (RESET, "Z"),
         (ask(0), "G 1"), (ask(0), "G 4"), (ask(0), "G 8"), (ask(0), "R 11")),
    edge("reset: every IF", BASE,
         (ask(0, departure=7), "R 20"), (ask(1, departure=7), "R 20"),
         (RESET, "Z"), (ask(1), "G 1"), (ask(0), "G 2")),

    # Slot 1 used the share of frame 0, which is there again for slot 2; then
    # with a share of 2.
    edge("reset: C becomes the share", EIGHT_CELLS,
         (ask(0), "G 1"), (credit(0, 1), "C"), (TICK, "T 0"), (RESET, "Z"),
         (ask(0), "G 2"), (ask(0), "G 4"), (ask(0), "R 11")),
    edge("reset: a third slot of the frame", BASE,
         (ask(0), "G 1"), (credit(0, 1), "C"),
         (ask(0), "G 2"), (credit(0, 2), "C"),
         (TICK, "T 0"), (TICK, "T 0"), (RESET, "Z"),
         (ask(0), "G 3"), (ask(0), "G 4"), (ask(0), "R 12")),

    # The clock goes on: the rest of frame 1, and then frame 0.
    edge("reset: in the middle of frame 1", ROOMY,
         *[(TICK, "T -")] * 5, (RESET, "Z"),
         (ask(0), "G 6"), (ask(0), "G 7"), (ask(0), "G 0"), (ask(0), "G 1"),
         (ask(0), "R 11"), *[(TICK, "T 0")] * 4, (TICK, "T -")),
    edge("reset: at a frame's last slot", ROOMY,
         *[(TICK, "T -")] * 7, (RESET, "Z"),
         (ask(0), "G 0"), (ask(0), "G 1"), (ask(0), "R 11")),
    edge("reset: at a frame's first slot", ROOMY,
         (ask(0, departure=7), "R 20"), *[(TICK, "T -")] * 4, (RESET, "Z"),
         (ask(0), "G 5"), (ask(0), "G 6"), (ask(0), "G 0"), (ask(0), "G 1"),
         (ask(0), "R 11")),

    # F = 1: the head frame has no rest, so that one slot is left.
    edge("reset: frames of one slot", SINGLE_SLOT,
         (ask(0), "G 1"), (credit(0, 1), "C"), (TICK, "T 0"), (RESET, "Z"),
         (lend(1), "R 17"), (ask(0), "G 0"), (ask(0), "R 11"),
         (TICK, "T 0"), (RESET, "R 23")),

    # A departure is read as before: slot 1 has gone by, slot 3 is to come.
    edge("reset: departures after it", BASE,
         (TICK, "T -"), (TICK, "T -"), (RESET, "Z"),
         (ask(0, departure=1), "G 3"), (ask(1, departure=3), "G 4")),
]

RECORDS = [
    # A filler that is not 0 makes no reset, and is tested before it.
    edge("reset: fillers", BASE,
         (ask(0, departure=7), "R 20"),
         *[(bytes([5, *[int(k == at) for k in range(4)]]), "R 16")
           for at in range(4)],
         (bytes([5, 255, 255, 255, 255]), "R 16"),
         (ask(0), "G 4"),           # IF is still newest
         (bytes([5, 0, 0, 0, 1]), "R 16"), (RESET, "R 23")),
    edge("reset: a last record of 4 bytes", BASE,
         (RESET, "Z"), (TICK, "T -"), (RESET[:4], "R 16")),
    edge("reset: a last record of 1 byte", BASE, (RESET[:1], "R 16")),
]

EDGES = GRANTED + REFUSED + WHERE_FLOWS_START + RECORDS

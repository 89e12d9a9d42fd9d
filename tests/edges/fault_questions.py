"""Edges of the word `faults`, worked out by hand."""

# F = 4, W = 2 and N = 8
SMALL = "faults 4 2 8 "


def flows(count):
    """Share 1, one cell, to node 63."""
    return "".join(" 1 1 %d 63" % node for node in range(count))


# Rule 15.4: a number and two that name the place, by number and then by place.
FAULTS = [
    ("no fault", "faults 4 2 4 2 2 1 9 2 2 2 9", "ok"),
    # 2: n, and 0
    ("no flow", "faults 4 2 4", "2 0 0"),
    ("16 flows", "faults 16 2 16" + flows(16), "ok"),
    ("17 flows", "faults 17 2 17" + flows(17), "2 17 0"),
    # of more than 16 flows the first 16 are looked at
    ("17 flows, the shares of 16 fit", "faults 16 2 16" + flows(17), "2 17 0"),
    ("17 flows, the last of them wrong",
     "faults 16 2 16" + flows(16) + " 0 0 64 64", "2 17 0"),
    ("17 flows, the shares of 16 do not fit", "faults 15 2 16" + flows(17),
     "2 17 0 6 16 15"),
    ("17 flows, the last one like the first", "faults 17 2 17" + flows(16)
     + " 1 1 0 63", "2 17 0"),
    ("40 flows", "faults 64 2 64" + 40 * " 1 1 1 9",
     "2 40 0 " + " ".join("5 0 %d" % flow for flow in range(1, 16))),
    ("272 flows, low byte 16", "faults 64 2 4095" + 272 * " 1 1 1 9",
     "2 272 0 " + " ".join("5 0 %d" % flow for flow in range(1, 16))),
    # 3: 0 for F, 1 for W, 2 for T, 3 for N, and the value
    ("F = 0, so that no share fits", "faults 0 2 4 1 1 1 9",
     "3 0 0 4 0 0 6 1 0"),
    ("F = 64", "faults 64 2 4 1 1 1 9", "ok"),
    ("F = 65", "faults 65 2 4 1 1 1 9", "3 0 65"),
    ("F = 260, low byte 4", "faults 260 2 4 1 1 1 9", "3 0 260 3 2 520"),
    ("W = 1", "faults 4 1 4 1 1 1 9", "3 1 1"),
    ("W = 8", "faults 4 8 4 1 1 1 9", "ok"),
    ("W = 9", "faults 4 9 4 1 1 1 9", "3 1 9"),
    ("W = 0, T = 0", "faults 4 0 4 1 1 1 9", "3 1 0"),
    ("T = 256", "faults 32 8 4 1 1 1 9", "ok"),
    ("T = 258", "faults 43 6 4 1 1 1 9", "3 2 258"),
    ("N = 0", "faults 4 2 0 1 1 1 9", "3 3 0 7 1 0"),
    ("N = 4,095", "faults 4 2 4095 1 1 1 9", "ok"),
    ("N = 4,096", "faults 4 2 4096 1 1 1 9", "3 3 4096"),
    ("F, W, T and N", "faults 65 9 0 1 1 1 9",
     "3 0 65 3 1 9 3 2 585 3 3 0 7 1 0"),
    # 4: the flow, and 0 for the share, 1 for the cells, 2 for the source, 3
    # for the destination, 4 for equal nodes
    ("share 0", SMALL + "0 1 1 9", "4 0 0"),
    ("share F", SMALL + "4 1 1 9", "ok"),
    ("share above F", SMALL + "5 1 1 9", "4 0 0 6 5 4"),
    ("no cell", SMALL + "1 0 1 9", "4 0 1"),
    ("255 cells", "faults 4 2 4000 1 255 1 9", "ok"),
    ("256 cells", "faults 4 2 4000 1 256 1 9", "4 0 1"),
    ("1,000 cells of 4,000", "faults 4 2 4000 1 1000 1 9", "4 0 1"),
    ("300 cells of 8", SMALL + "1 300 1 9", "4 0 1 7 300 8"),
    ("nodes 63 and 0", SMALL + "1 1 63 0", "ok"),
    ("source 64", SMALL + "1 1 64 9", "4 0 2"),
    ("destination 64", SMALL + "1 1 9 64", "4 0 3"),
    ("equal nodes", SMALL + "1 1 9 9", "4 0 4"),
    ("nodes 257 and 1, low bytes equal", SMALL + "1 1 257 1", "4 0 2"),
    ("all five", SMALL + "0 0 64 64", "4 0 0 4 0 1 4 0 2 4 0 3 4 0 4"),
    ("of three flows", SMALL + "1 0 1 9 0 1 2 9 0 1 3 3",
     "4 0 1 4 1 0 4 2 0 4 2 4"),
    # 5: the first flow with these nodes, and the one that has them again
    ("the third and fourth like the first",
     SMALL + "1 1 1 9 1 1 2 9 1 1 1 9 1 1 1 9", "5 0 2 5 0 3"),
    ("the last two", SMALL + "1 1 1 9 1 1 2 9 1 1 2 9", "5 1 2"),
    ("there and back", SMALL + "1 1 1 9 1 1 9 1 1 1 1 8", "ok"),
    # 6 and 7: the sum, and F or N
    ("shares that add to F", SMALL + "2 1 1 9 2 1 2 9", "ok"),
    ("shares that add to more", SMALL + "2 1 1 9 3 1 2 9", "6 5 4"),
    ("cells that add to more", SMALL + "1 4 1 9 1 5 2 9", "7 9 8"),
    ("both", SMALL + "2 4 1 9 3 5 2 9", "6 5 4 7 9 8"),
    # all at once
    ("3, 4, 5, 6 and 7", "faults 2 1 3 2 2 1 9 1 2 1 9 1 0 5 6",
     "3 1 1 4 2 1 5 0 1 6 4 2 7 4 3"),
    ("nine digits", "faults 999999999 999999999 999999999",
     "2 0 0 3 0 999999999 3 1 999999999 3 2 999999998000000001"
     " 3 3 999999999"),
    ("16 flows of nine digits", "faults 1 2 1"
     + 16 * " 999999999 999999999 999999999 999999999",
     " ".join("4 %d 0 4 %d 1 4 %d 2 4 %d 3 4 %d 4" % (5 * (flow,))
              for flow in range(16))
     + " " + " ".join("5 0 %d" % flow for flow in range(1, 16))
     + " 6 15999999984 1 7 15999999984 1"),
    ("zeros in front", "faults 004 02 000000008 1 01 1 9", "ok"),
]

# Lines that are no question.
NO_QUESTIONS = [
    ("faults alone", "faults"),
    ("faults with two numbers", "faults 4 2"),
    ("faults with half a flow", SMALL + "1 1"),
    ("faults with a number too many", SMALL + "1 1 1 9 1"),
    ("faults with ten digits", "faults 4 2 1000000000 1 1 1 9"),
    ("faults with two blanks", "faults  4 2 8 1 1 1 9"),
    ("faults with a letter", SMALL + "1 x 1 9"),
    ("faults in capitals", "FAULTS 4 2 8 1 1 1 9"),
    ("fault", "fault 4 2 8 1 1 1 9"),
]

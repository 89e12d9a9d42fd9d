"""Ways worked out by hand: a right one in which the bound is attained, and
those in which a premise is missing and the stream is refused or late.

A way is a name, a plan with its calls and their lines for each link, and words
of what has to be told, or None.  The stream is flow 0 of each link.  Slots are
numbered on without end, and a position is a slot modulo T.
"""

from edges.edge_maker import RESET, TICK, ask, credit, edge, lend, plan

STREAM = 0
IDLE = (TICK, "T -")


class ByHand:
    def __init__(self, name, links, words=None):
        self.name = name
        self.links = [edge("%s, link %d" % (name, place), *link)
                      for place, link in enumerate(links, 1)]
        self.words = words


def ticks(*flows):
    return [(TICK, "T %s" % flow) for flow in flows]


# F = 4, W = 2, share 1, a neighbour of share 3 on each link.  Tile 1 is asked
# for in slot 4, comes up on link 1 in slot 11, and on link 2 in slot 15.
NEIGHBOURS = plan(4, 2, (1, 2), (3, 9))
FIRST_LINK = [
    IDLE, IDLE, IDLE,
    (ask(1), "G 4"), (ask(1), "G 5"), (ask(1), "G 6"), (ask(0), "G 7"),
    (TICK, "T 1"),
    (ask(1), "G 0"), (ask(1), "G 1"), (ask(1), "G 2"), (ask(0), "G 3"),
    *ticks(1, 1, 0), (credit(0, 3), "C"),
    *ticks(1, 1, 1, 0), (credit(0, 7), "C")]
SECOND_LINK = [
    *[IDLE] * 7,
    (ask(1), "G 0"), (ask(1), "G 1"), (ask(1), "G 2"), (ask(0), "G 3"),
    (TICK, "T 1"),
    (ask(1), "G 4"), (ask(1), "G 5"), (ask(1), "G 6"),
    *ticks(1, 1, 0)]
ATTAINED = ByHand(
    "the bound is attained over two links",
    [(NEIGHBOURS, *FIRST_LINK),
     (NEIGHBOURS, *SECOND_LINK, (ask(0), "G 7"))])

# Rules 22.8 and 23.2: three shares of cells on the last link, whose tiles are
# shown two frames on.
SHOWN = [
    IDLE, (ask(0), "G 2"), (ask(0), "G 3"), (TICK, "T 0"), (TICK, "T 0"),
    (ask(0), "G 0"), (ask(0), "G 1"), (TICK, "T 0"), (ask(0), "G 2")]
# Rule 22.9: F = 2, W = 3, share 1, each tile asked for a frame ahead.  Tiles
# are due in slots 3, 5 and 7, and come up in 4, 6 and 8; in slot 4 none is
# given back, so that the third finds two held from slot 6 on.
AHEAD = [
    (ask(0, departure=3), "G 4"), IDLE, IDLE, (ask(0, departure=5), "G 0"),
    IDLE, (TICK, "T 0")]
# Rule 22.15: F = 2, W = 2, share 1.  The tile is due in slot 0, comes up on
# link 1 in slot 1, and on link 2 in slot 2; in slot 6 it has to be up.
SIX_SLOTS = [(ask(0), "G 1"), (TICK, "T 0"), (credit(0, 2), "C"), *[IDLE] * 5]
IN_TIME = [
    ATTAINED,
    ByHand("a tile arrives",
           [(plan(2, 2, (1, 2)), *SIX_SLOTS),
            (plan(2, 2, (1, 2)), IDLE, (ask(0, departure=1), "G 2"),
             (TICK, "T 0"), *[IDLE] * 4)]),
    ByHand("three shares of cells where words run ahead by a frame",
           [(plan(2, 3, (1, 3)), *AHEAD, (ask(0, departure=1), "G 2"))]),
    ByHand("three shares of cells where tiles are shown first",
           [(plan(2, 2, (2, 6)), *SHOWN, (ask(0), "G 3"))]),
    # Rule 22.13: F = 2, W = 4, share 1.  Tiles of three frames are asked for in
    # slot 0, each credited at its grant, dated by the end of the next frame.
    ByHand("two shares and a cell where each is credited at its grant",
           [(plan(2, 4, (1, 3)),
             (ask(0), "G 1"), (credit(0, 3), "C"),
             (ask(0, departure=2), "G 3"), (credit(0, 5), "C"),
             (ask(0, departure=4), "G 5"))]),
]

BROKEN = [
    # Rule 22.11, here and below.  F = 3, W = 2, share 1; the second link has a
    # neighbour of share 2.  Link 1 grants slot 3, is reset in slot 4, and
    # grants slot 5.
    ByHand("a reset breaks it",
           [(plan(3, 2, (1, 2)),
             IDLE, IDLE, (ask(0), "G 3"), (TICK, "T 0"), (credit(0, 4), "C"),
             IDLE, (RESET, "Z"), (ask(0), "G 5"), (TICK, "T 0")),
            (plan(3, 2, (1, 2), (2, 9)),
             IDLE, IDLE, IDLE, (ask(1), "G 4"), (ask(1), "G 5"),
             (ask(0), "G 0"), (TICK, "T 1"), (TICK, "T 1"),
             (ask(0), "R 11"))],
           "link 2: tile 1 is refused with 11"),
    # F = 2, W = 2, share 1.  Link 1 grants slot 2, and slot 3 is lent.
    ByHand("a lent slot breaks it",
           [(plan(2, 2, (1, 2)),
             IDLE, (ask(0), "G 2"), (TICK, "T 0"), (credit(0, 0), "C"),
             IDLE, (lend(1), "L 0")),
            (plan(2, 2, (1, 2), (1, 9)),
             IDLE, IDLE, (ask(1), "G 3"), (ask(0), "G 0"), (TICK, "T 1"),
             (ask(0), "R 11"))],
           "link 2: tile 1 is refused with 11"),
    # Rule 23.3: F = 2, W = 2, share 1, one cell: the neighbour has slots 1 and
    # 2.
    ByHand("one cell fewer than two shares breaks it",
           [(plan(2, 2, (1, 1), (1, 9)),
             (ask(1), "G 1"), (ask(1), "G 2"), (ask(0), "G 3"),
             (TICK, "T 1"), (TICK, "T 1"), (ask(0), "R 12"))],
           "link 1: tile 1 is refused with 12"),
    # F = 2, W = 2, share 2: in slot 4 none of slots 2 to 5 is given back.
    ByHand("one cell fewer than three breaks it where tiles are shown first",
           [(plan(2, 2, (2, 5)), *SHOWN, (ask(0), "R 12"))],
           "link 1: tile 5 is refused with 12"),
    ByHand("one cell fewer than three breaks it where words run ahead",
           [(plan(2, 3, (1, 2)), *AHEAD, (ask(0, departure=1), "R 12"))],
           "link 1: tile 2 is refused with 12"),
    # F = 2, W = 3, share 1, asked for after its share in frame 0: slot 4 is
    # in frame 2.
    ByHand("a tile more than the share in a frame is late",
           [(plan(2, 3, (1, 9)),
             (ask(0), "G 1"), (ask(0), "G 2"), (ask(0), "G 4"))],
           "link 1: tile 2 comes up 4 slots after it is due"),
]

# Listings, or calls, that no way has.
WRONG = [
    ByHand("late on the second link",
           [(NEIGHBOURS, *FIRST_LINK),
            (NEIGHBOURS, *SECOND_LINK, (ask(0), "G 0"))],
           "link 2: tile 1 comes up 12 slots after it is due"),
    ByHand("refused on the second link",
           [(NEIGHBOURS, *FIRST_LINK),
            (NEIGHBOURS, *SECOND_LINK, (ask(0), "R 11"))],
           "link 2: tile 1 is refused with 11"),
    ByHand("late on the first link",
           [(plan(2, 3, (1, 9)), (ask(0), "G 4"))],
           "link 1: tile 0 comes up 4 slots after it is due"),
    ByHand("a tile that is not asked for",
           [(NEIGHBOURS, *FIRST_LINK), (NEIGHBOURS, *SECOND_LINK)],
           "link 2: 2 tiles came, and 1 were asked for"),
    ByHand("a second link that never asks",
           [(plan(2, 2, (1, 2)), *SIX_SLOTS),
            (plan(2, 2, (1, 2)), *[IDLE] * 6)],
           "link 2: 1 tiles have to be up, and 0 are"),
    ByHand("a departure that is not the tile's slot",
           [(NEIGHBOURS, *FIRST_LINK),
            (NEIGHBOURS, *SECOND_LINK, (ask(0, departure=2), "G 7"))],
           "link 2: tile 1 comes in slot 11, and is asked for in slot 11 with "
           "departure 2"),
    ByHand("a tile that is asked for after it came",
           [(NEIGHBOURS, *FIRST_LINK, IDLE),
            (NEIGHBOURS, *SECOND_LINK, (TICK, "T 1"),
             (ask(0, departure=3), "G 7"))],
           "link 2: tile 1 comes in slot 11, and is asked for in slot 12 with "
           "departure 3"),
]

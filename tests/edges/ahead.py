"""Edges in pairs, for allcalls: runs from one plan, the second with tiles sent
ahead of their booked slots by a lend and a credit.

The first ones meet the premises of rule 24.5; the next break one each, and
bookings move or tiles leave out of order; and the last send what may not be
sent.
"""

from ahead.check import ALONE, ORDER
from edges.edge_maker import BASE, RESET, ask, credit, edge, lend, plan
from edges.pairs import Pair, ticks

LONG_FRAMES = plan(8, 2, (3, 1))
ONE_AND_EIGHT = plan(4, 2, (2, 1), (2, 8))
THIN = plan(3, 3, (1, 4))
FIVE_SLOTS = plan(5, 2, (1, 3), (1, 3))
TWO_CELLS = plan(8, 2, (4, 2))
ONE_EACH = plan(4, 2, (1, 2), (1, 2))


def sent(position, flow=0):
    """A tile of the slot at this position leaves in the current slot: rules
    24.1 and 24.3."""
    return [(lend(1 << flow), "L %d" % flow), (credit(flow, position), "C")]


def with_pair(name, plan_bytes, before, pair, after, *others, **more):
    """Two runs with the same calls, and a pair in the second; where the calls
    after it are answered otherwise there, they are named."""
    return Pair("ahead, " + name, plan_bytes, [*before, *after],
                [*before, *pair, *(others or after)], **more)


# Rules 24.4 and 24.5: flow 0 books slots 1, 2 and 4 in slot 0, and sends the
# last tile in slot 3; flow 1 books slot 5, and then flow 0 slot 6.
TWO = [(ask(0), "G 1"), (ask(0), "G 2"), (credit(0, 3), "C"),
       (ask(0), "G 4"), (credit(0, 4), "C")]
THREE = [*TWO, *ticks(0, 0, "-")]
WITNESS = with_pair(
    "two runs", BASE, THREE, sent(4),
    [(ask(1), "G 5"), *ticks(0), (credit(0, 5), "C"), (ask(0), "G 6"),
     *ticks(1, 0)])

# Flow 0 has slots 1 and 5 and holds its one cell from 1 up to 2 and from 5
# on.  It sends slot 5 in slot 2, and asks for a tile that comes in slot 7:
# slot 4 fails by the departure alone without the pair, and is full with it.
NUMBERS = with_pair(
    "another number of a refusal", ONE_AND_EIGHT,
    [(ask(0), "G 1"), (credit(0, 5), "C"), (ask(0), "G 5"),
     (credit(0, 2), "C"), (ask(1, departure=5), "G 6"),
     (ask(1, departure=6), "G 7"), *ticks(0, "-")], sent(5),
    [(ask(0, departure=7), "R 20")], (ask(0, departure=7), "R 12"))

# Flow 0 has slots 1 and 5, flow 1 slots 2 and 6.  Slot 5 is sent in slot 3,
# and in slot 4 slot 6, of the other flow.
BOTH_FLOWS = with_pair(
    "two flows", FIVE_SLOTS,
    [(ask(0), "G 1"), (ask(0), "G 5"), (ask(1), "G 2"), (ask(1), "G 6"),
     *ticks(0, 1, "-")], [],
    ticks("-", 0, 1), *sent(5), *ticks("-"), *sent(6, 1), *ticks(0, 1))

# Slot 4 is sent in slot 2.  In slot 5 both cells have come back, and a reset
# is granted in both; then slots 6 and 8 are booked, and slot 8, at position 0,
# is sent in slot 7.
QUIET = [(RESET, "R 23"), (credit(0, 5), "C"), *ticks("-", 0, "-"),
         (RESET, "Z"), (ask(0), "G 6"), (ask(0), "G 0"), (credit(0, 7), "C"),
         *ticks(0, "-")]
WITH_RESET = with_pair(
    "a reset in both", plan(4, 2, (1, 2)),
    [(ask(0), "G 1"), (ask(0), "G 4"), (credit(0, 2), "C"), *ticks(0, "-")],
    sent(4), [*QUIET, *ticks(0)], *QUIET, *sent(0), *ticks(0))

# Rule 24.6: the flow has slots 1 and 5, and one cell, free from slot 2 on.
# With slot 5 sent in slot 2 it is full up to slot 4: slot 6 for slot 3.
NOT_IN_ORDER = with_pair(
    "a grant before a slot sent ahead", LONG_FRAMES,
    [(ask(0), "G 1"), (credit(0, 5), "C"), (ask(0), "G 5"),
     (credit(0, 2), "C"), *ticks(0, "-")], sent(5),
    [(ask(0), "G 3")], (ask(0), "G 6"),
    broken=ORDER, says="is answered with G 3 and G 6")

# Slots 1, 2 and 5, and cells that are free from slot 3 on.  Slot 5 is sent in
# slot 3; and a credit is dated slot 4, where the flow holds nothing but the
# tile sent ahead.  Then it books slots 6 and 10, and its cells are full from
# there on where that credit was refused.
TAKEN_ALONE = with_pair(
    "a credit taken in the second run alone", plan(5, 3, (2, 3)),
    [(ask(0), "G 1"), (ask(0), "G 2"), (ask(0), "G 5"), (credit(0, 3), "C"),
     (credit(0, 3), "C"), *ticks(0, 0, "-")], sent(5),
    [(credit(0, 4), "R 15"), (ask(0), "G 6"), (ask(0), "G 10"),
     (ask(0), "R 12")],
    (credit(0, 4), "C"), (ask(0), "G 6"), (ask(0), "G 10"), (ask(0), "G 11"),
    broken=ALONE, says="is answered with R 12 and G 11")

# Rule 24.9: such a credit, with room at each request.  Flow 0 has slots 1 and
# 5, flow 1 slots 2 and 6; slot 5 is sent in slot 3.  In slot 7 the second run
# alone holds nothing, and is granted a reset: flow 1, whose share of frame 1
# was spent, books slot 8 of it, and in the first run slot 10, at position 0.
RENEWED_ALONE = with_pair(
    "a reset after a credit taken in the second run alone",
    plan(5, 2, (1, 2), (1, 2)),
    [(ask(0), "G 1"), (ask(0), "G 5"), (ask(1), "G 2"), (ask(1), "G 6"),
     (credit(0, 3), "C"), (credit(1, 3), "C"), *ticks(0, 1, "-")], sent(5),
    [(credit(0, 4), "R 15"), *ticks("-", 0, 1), (credit(1, 7), "C"),
     *ticks("-"), (RESET, "R 23"), (ask(1), "G 0")],
    (credit(0, 4), "C"), *ticks("-", 0, 1), (credit(1, 7), "C"),
    *ticks("-"), (RESET, "Z"), (ask(1), "G 8"),
    broken=ALONE, says="a reset is answered with R 23 and Z")

# The flow has slots 1, 2 and 5, the last booked while slots 2 to 4 were full.
# It sends slot 5 in slot 3, and books slot 4 when a cell falls free there.
LATER_FIRST = with_pair(
    "an earlier slot after one sent ahead", TWO_CELLS,
    [(ask(0), "G 1"), (ask(0), "G 2"), (credit(0, 5), "C"), (ask(0), "G 5"),
     (credit(0, 3), "C"), *ticks(0, 0, "-")], sent(5),
    [(credit(0, 4), "C"), (ask(0), "G 4"), *ticks(0)],
    broken=ORDER, says="the tile of slot 4 out of order")

# Rule 24.2: what may not be sent.  Slots 4 and 5 are booked, and slot 3 is
# the current one.  A lend without its credit, of which the first run has none.
FOUR = [*TWO, (ask(0), "G 5"), (credit(0, 5), "C"), *ticks(0, 0, "-")]
LENT_ONLY = with_pair("lent only", BASE, FOUR, [(lend(1), "L 0")], [])
CREDITED_ONLY = with_pair("credited only", BASE, FOUR, [(credit(0, 5), "C")],
                          [])
OF_NOTHING = with_pair("of a slot that is not booked", BASE, FOUR, sent(6), [])
OUT_OF_ORDER = with_pair("the second tile first", BASE, FOUR, sent(5), [])
NOT_COME = with_pair("before it comes", BASE, [(ask(0, departure=2), "G 3")],
                     sent(3), [])
# On the link before the tile comes up in slot 1, in which it is asked for: it
# would leave both links in one slot.  Asked for in slot 0, ahead, too.
AS_IT_COMES = with_pair("in the slot in which it comes", BASE,
                        [*ticks("-"), (ask(0), "G 2")], sent(2), [])
AHEAD_AS_IT_COMES = with_pair(
    "asked ahead, and sent in the slot in which it comes", BASE,
    [(ask(0, departure=1), "G 2"), *ticks("-")], sent(2), [])
TWICE = with_pair(
    "twice", THIN, [(ask(0), "G 1"), (ask(0), "G 3"), (ask(0), "G 6"),
                    *ticks(0, "-", 0, "-")], [],
    ticks("-"), *sent(6), *ticks("-"), *sent(6))
ANOTHERS = with_pair(
    "of a slot that another flow booked", BASE, [*FOUR, (ask(1), "G 6")],
    sent(6), [])

# The lend is answered with flow 0, and the credit is of flow 1.
OTHER_CREDITED = with_pair(
    "lent to one flow, credited to another", BASE, [*FOUR, (ask(1), "G 6")],
    [(lend(1), "L 0"), (credit(1, 6), "C")], [])
# A tile that comes in slot 4 has slot 5.  Sent in slot 0, it fills slots 2 to
# 4: slot 6 for slot 2.
DUE_LATER = with_pair(
    "before it comes, and a request", TWO_CELLS,
    [(ask(0), "G 1"), (credit(0, 5), "C"), (ask(0, departure=4), "G 5")],
    sent(5), [(ask(0), "G 2")], (ask(0), "G 6"))
# In slot 2 all is quiet but for what the pair holds up to slot 3.
BEFORE_A_RESET = with_pair(
    "of a slot that is not booked, before a reset", ONE_EACH,
    [(ask(1), "G 1"), (credit(1, 2), "C"), *ticks(1, "-")], sent(3),
    [(RESET, "Z"), (ask(1), "G 3")], (RESET, "R 23"), (ask(1), "G 4"))

# Rule 24.8, F = 2, W = 2, share 1.  The first board has tiles in slots 2 and
# 4, and sends the second in slot 3.  On the second a neighbour has slot 3, so
# that the first tile gets slot 4, the share of frame 2.  By its booked slot
# the second gets slot 6; asked for when it came, it is the second of frame 1.
SHARE_OF_ONE = plan(2, 2, (1, 9), (1, 9))
FIRST_TILE = [*ticks("-", "-"), (ask(1), "G 3"), (ask(0), "G 0"), *ticks(1)]
OVER_LINKS = [
    edge("ahead, over two links: sent early on the first", SHARE_OF_ONE,
         *ticks("-"), (ask(0), "G 2"), *ticks(0), (ask(0), "G 0"),
         *ticks("-"), *sent(0), *ticks(0)),
    edge("ahead, over two links: asked for by its booked slot", SHARE_OF_ONE,
         *FIRST_TILE, *ticks(0), (ask(0), "G 2")),
    edge("ahead, over two links: asked for when it came early", SHARE_OF_ONE,
         *FIRST_TILE, (ask(0), "R 11"))]

RIGHT = [WITNESS, NUMBERS, BOTH_FLOWS, WITH_RESET]
PREMISES = [NOT_IN_ORDER, TAKEN_ALONE, RENEWED_ALONE, LATER_FIRST]
BAD = [LENT_ONLY, CREDITED_ONLY, OF_NOTHING, OUT_OF_ORDER, NOT_COME,
       AS_IT_COMES, AHEAD_AS_IT_COMES, TWICE, ANOTHERS, OTHER_CREDITED,
       DUE_LATER, BEFORE_A_RESET]
EDGES = [run for pair in RIGHT + PREMISES + BAD
         for run in (pair.first, pair.second)] + OVER_LINKS

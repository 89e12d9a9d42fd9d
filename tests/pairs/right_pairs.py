"""Right pairs of listings, which the check must not send back, with what it
counts in them."""

from edges.edge_maker import TICK, ask, burst, credit, lend, plan
from edges.pairs import (
    FIRST_FRAME, ONE, SHARES, THREE_CELLS, WITNESS, Pair, ticks)
from pairs.check import (
    BOTH_REFUSED, GRANTS_DIFFER, ILL_FORMED, ONE_CREDIT, ONE_LEND,
    OTHER_NUMBER, OTHER_SLOT, SAME_SLOT)
from pairs.run import FULL, NO_11, TO_COME

TWO_CELLS = plan(4, 2, (1, 2))


def in_second(name, *others):
    """The last request in slot 4, of flow 0 alone in both, and another last
    request of the second run."""
    return Pair(name, SHARES, [*FIRST_FRAME, (ask(0), "G 0")],
                [*FIRST_FRAME, *others])


def ill(name, line, other):
    """A word of the flow with departure 8, which is T."""
    return Pair(name, SHARES,
                [*FIRST_FRAME, (ask(0, departure=8), line)],
                [*FIRST_FRAME, (ask(0, departure=8), other)])


def twice(name, plan_bytes, *steps):
    """The same calls in both runs."""
    return Pair(name, plan_bytes, steps, steps)


def of_flow_1():
    """Its first frame, as flow 0 has it alone."""
    return [(ask(1), "G 1"), (ask(1), "G 4"), (ask(1), "R 11"),
            *ticks(1, "-", "-", 1)]


# With the frame changes up to which they are judged, the premise that is
# broken, and what is counted.
RIGHT = [
    (WITNESS, 2, None, {
        OTHER_SLOT: 2, BOTH_REFUSED: 2, OTHER_NUMBER: 4, GRANTS_DIFFER: 2,
        ONE_CREDIT: 1, ONE_LEND: 1}),
    (Pair("the same run twice", SHARES, ONE, ONE), 2, None,
     {SAME_SLOT: 2, BOTH_REFUSED: 2}),
    (ill("an ill-formed word refused alike", "R 10", "R 10"), 1, None,
     {ILL_FORMED: 1}),
    (twice("another destination refused alike", SHARES, *FIRST_FRAME,
           (ask(0, to=8), "R 9")), 1, None, {ILL_FORMED: 1}),
    # The frame that has not ended needs no 11; frame 0 does.
    (in_second("no 11 in the last frame", (ask(0), "G 1")), 1, None,
     {OTHER_SLOT: 1}),
    (Pair("no 11 in frame 0 of one run", SHARES,
          [(ask(0), "G 1"), (ask(0), "G 4"), *ticks(0, "-", "-", 0),
           (ask(0), "G 0")],
          [(ask(0), "G 1"), (ask(0), "R 11"), *ticks(0, "-", "-", "-"),
           (ask(0), "R 11")]), 0, NO_11, {GRANTS_DIFFER: 1}),
    # What is judged before the premise breaks stays judged.
    (Pair("no 11 in frame 1", SHARES,
          [*FIRST_FRAME, (ask(0), "G 0"), *ticks("-", "-", "-", 0),
           (ask(0), "G 4")],
          [*FIRST_FRAME, (ask(0), "G 1"), *ticks("-", "-", "-", "-"),
           (ask(0), "R 11")]), 1, NO_11, {OTHER_SLOT: 1}),
    # Slots 1 and 4 and the lent one; then a credit from slot 6 on, which
    # leaves the current slot as it is.
    (Pair("full at the current slot alone", THREE_CELLS,
          [*FIRST_FRAME, *ticks("-"), (credit(0, 6), "C"), (ask(0), "G 0")],
          [*FIRST_FRAME, *ticks("-"), (lend(1), "L 0"), (credit(0, 6), "C"),
           (ask(0), "R 11")]), 1, FULL, {}),
    (Pair("a burst of other flows' words too", SHARES,
          [*FIRST_FRAME, (burst(ask(1), ask(0), ask(1), ask(0)),
                          "B 0 5", "B 0 0", "B 0 6", "B 11 0")],
          [*FIRST_FRAME, (ask(0), "G 0"), (lend(2), "R 17"),
           (ask(0), "R 11")]), 1, None, {SAME_SLOT: 1, BOTH_REFUSED: 1}),
    # A word and a credit for flow 2, which is not there.
    (Pair("calls of flows that are not there", SHARES,
          [*FIRST_FRAME, (ask(0), "G 0")],
          [*FIRST_FRAME, (ask(2), "R 8"), (credit(2, 5), "R 8"),
           (ask(0), "G 0")]), 1, None, {SAME_SLOT: 1}),
    # The second flow of the plan; the first takes slot 5 in one run.
    (Pair("another flow", plan(4, 2, (3, 1), (1, 8)),
          [*of_flow_1(), (ask(1), "G 0")],
          [*of_flow_1(), (ask(0), "G 5"), (ask(1), "G 0")], flow=1),
     1, None, {SAME_SLOT: 1}),

    # Two cells: slots 1 and 4 are held at the third request, but not yet.
    (twice("full at later slots alone", TWO_CELLS, *FIRST_FRAME), 0, FULL, {}),
    (twice("a credit makes room", TWO_CELLS,
           (ask(0), "G 1"), (credit(0, 1), "C"), *FIRST_FRAME[1:],
           (ask(0), "G 0")), 1, None, {SAME_SLOT: 1}),
    (twice("a refused credit makes none", TWO_CELLS,
           (ask(0), "G 1"), (credit(0, 1), "R 15"), *FIRST_FRAME[1:]),
     0, FULL, {}),
    # Slot 1 is held up to slot 3.
    (twice("a credit makes room from its date on", plan(4, 2, (1, 1)),
           (ask(0), "G 1"), (credit(0, 4), "C"), (ask(0), "G 4")),
     0, FULL, {}),
    # 1 held at slot 1, 0 from slot 2 on, and 1 again from slot 4 on.
    (twice("a credit dated before a grant", TWO_CELLS,
           (ask(0), "G 1"), *ticks(0), (ask(0), "G 4"), (credit(0, 2), "C"),
           (ask(0), "R 11"), *ticks("-", "-", 0), (ask(0), "G 0")),
     1, None, {SAME_SLOT: 1}),
    (Pair("a slot lent to another flow", plan(4, 2, (1, 3), (3, 8)),
          [*FIRST_FRAME, *ticks("-"), (ask(0), "G 0")],
          [*FIRST_FRAME, *ticks("-"), (lend(2), "L 1"), (ask(0), "G 0")]),
     1, None, {SAME_SLOT: 1}),
    (twice("12 is not 11", SHARES,
           (ask(0), "G 1"), (ask(0), "R 12"), *ticks(0, "-", "-", "-"),
           (ask(0), "G 5")), 0, NO_11, {}),
    (twice("11 of another flow", SHARES,
           (ask(0), "G 1"), (ask(1), "R 11"), *ticks(0, "-", "-", "-"),
           (ask(0), "G 5")), 0, NO_11, {}),
    # Departure 4 is the frame's first slot; 3 is the one before it.
    (twice("a tile of this frame", SHARES, *FIRST_FRAME, *ticks("-", "-"),
           (ask(0, departure=4), "G 0")), 1, None, {SAME_SLOT: 1}),
    (twice("a tile of the frame before", SHARES, *FIRST_FRAME,
           *ticks("-", "-"), (ask(0, departure=3), "R 20")), 1, TO_COME, {}),
    # Number 0 again after 1,024 grants, one in each frame.
    (twice("numbers go round", plan(1, 2, (1, 255)),
           (ask(0), "G 1"), (credit(0, 1), "C"), (ask(0), "R 11"),
           *[step for slot in range(2, 1032) for step in (
               (TICK, "T 0"), (ask(0), "G %d" % (slot % 2)),
               (credit(0, slot % 2), "C"), (ask(0), "R 11"))]),
     1030, None, {SAME_SLOT: 1030, BOTH_REFUSED: 1030}),
]

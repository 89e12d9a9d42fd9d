"""Edges in pairs, for allcalls: runs from one plan with the same ticks, and
the same requests and credits of flow 0, the main head's.

The two listings of the witness meet the premises of rule 21.11; each of the
other pairs breaks one premise, and the conclusion with it.
"""

from edges.edge_maker import RESET, TICK, ask, credit, edge, lend, plan
from pairs.run import FULL, NO_11, NUMBER, TO_COME
from pairs.run import RESET as A_RESET

SHARES = plan(4, 2, (1, 8), (3, 8))     # T = 8
ALONE = plan(4, 2, (1, 8))
THREE_CELLS = plan(4, 2, (1, 3))


class Pair:
    def __init__(self, name, plan_bytes, first, second, broken=None,
                 says=None, flow=0):
        self.name = name
        self.flow = flow            # whose frames are looked at
        self.first = edge("pair: %s, one run" % name, plan_bytes, *first)
        self.second = edge("pair: %s, the other" % name, plan_bytes, *second)
        self.broken = broken        # the premise that it breaks, or None
        self.says = says            # what is wrong without that premise

    def runs(self):
        return [(run.data, run.lines) for run in (self.first, self.second)]


def ticks(*flows):
    """Ticks, with the flow that each comes up for, or -."""
    return [(TICK, "T %s" % flow) for flow in flows]


# Flow 0 alone: slots 1 and 4, and then 11.  Frame 2 has slots 8 to 11.
FIRST_FRAME = [(ask(0), "G 1"), (ask(0), "G 4"), (ask(0), "R 11"),
               *ticks(0, "-", "-", 0)]
CROWDED = [(ask(1), "G 1"), (ask(1), "G 2"), (ask(1), "G 3")]

# Frame 0 is full before flow 0 asks in the second run: slot 4 for slot 1, and
# then 11 for slot 4.  From then on its grants lie in frames 2 and 3 in both,
# at slots 8 and 12 in the first run, 9 and 13 in the second.
ONE = [
    *FIRST_FRAME,
    (ask(0), "G 0"), (ask(0), "R 11"),
    *ticks("-"), (lend(1), "L 0"),              # slot 5
    *ticks("-", "-", 0),
    # From slot 9 on it holds slots 1, 4, 5 and 8: three cells come back.
    (credit(0, 1), "C"), (credit(0, 1), "C"), (credit(0, 1), "C"),
    (ask(0), "G 4"), (ask(0), "R 11")]
OTHER = [
    *CROWDED, (ask(0), "G 4"), (ask(0), "R 11"), (ask(0), "R 11"),
    *ticks(1, 1, 1, 0),
    (ask(1), "G 5"), (ask(1), "G 6"), (ask(1), "G 7"), (ask(1), "G 0"),
    (credit(1, 5), "C"), (credit(1, 5), "C"), (credit(1, 5), "C"),
    (lend(1), "R 17"),
    (ask(0), "G 1"), (ask(0), "R 11"),
    *ticks(1, 1, 1, 1),
    # From slot 9 on it holds slots 4 and 9.
    (credit(0, 1), "C"), (credit(0, 1), "C"), (credit(0, 1), "R 15"),
    (ask(1), "G 2"), (ask(1), "G 3"), (ask(1), "G 4"),
    (ask(0), "G 5"), (ask(0), "R 11")]
WITNESS = Pair("the witness", SHARES, ONE, OTHER)

# Without a refusal in frame 0, IF goes on with the frame in the first run, to
# slot 5 of frame 1; in the second frame 1 is spent, and slot 8 is next.
NOT_ASKED = Pair(
    "no 11 in frame 0", SHARES,
    [(ask(0), "G 1"), *ticks(0, "-", "-", "-"), (ask(0), "G 5")],
    [*CROWDED, (ask(0), "G 4"), *ticks(1, 1, 1, 0), (ask(0), "G 0")],
    NO_11, "frames 1 and 2")

# At slot 5 it holds slots 1 and 4, and in the second run slot 5, lent.
ALL_HELD = Pair(
    "all cells are held", THREE_CELLS,
    [*FIRST_FRAME, *ticks("-"), (ask(0), "G 0")],
    [*FIRST_FRAME, *ticks("-"), (lend(1), "L 0"), (ask(0), "R 12")],
    FULL, "granted in one run")

# At slot 4 departure 2 is slot 10, of the newest frame: slot 11 is left in
# the first run; in the second flow 1 has slots 9 to 11.
NOT_COME = Pair(
    "a tile that has not come", SHARES,
    [*FIRST_FRAME, (ask(0, departure=2), "G 3")],
    [*FIRST_FRAME, (ask(1), "G 5"), (ask(1), "G 6"), (ask(1), "G 7"),
     (ask(1, departure=0), "G 1"), (ask(1, departure=0), "G 2"),
     (ask(1, departure=0), "G 3"), (ask(0, departure=2), "R 20")],
    TO_COME, "granted in one run")

# Number 2 is due at slot 4.
WRONG_NUMBER = Pair(
    "another number", SHARES,
    [*FIRST_FRAME, (ask(0, quantum=2), "G 0")],
    [*FIRST_FRAME, (ask(0, quantum=3), "R 24")],
    NUMBER, "granted in one run")

# The reset puts IF back to the head frame.
CREDITED = [(ask(0), "G 1"), (credit(0, 1), "C"), (ask(0), "G 4"),
            (credit(0, 4), "C"), (ask(0), "R 11"), *ticks(0, "-", "-", 0)]
WITH_RESET = Pair(
    "a reset", ALONE,
    [*CREDITED, (ask(0), "G 0")],
    [*CREDITED, (RESET, "Z"), (ask(0), "G 5")],
    A_RESET, "frames 2 and 1")

PAIRS = [WITNESS, NOT_ASKED, ALL_HELD, NOT_COME, WRONG_NUMBER, WITH_RESET]
EDGES = [run for pair in PAIRS for run in (pair.first, pair.second)]

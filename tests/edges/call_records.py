"""Edges of domelink's call records: refusal 16, and where the plan ends."""

from call_bytes import request
from edges.edge_maker import (
    BASE, Edge, RESET, TICK, TO, ask, credit, edge, lend)

WORD = request(TO, 0)

NO_CALLS = [
    # Rule 13.4: kinds other than 1 to 3, and fillers, before any test of the
    # call.
    edge("refusal 16", BASE,
         (bytes([0, 0, 0, 0, 0]), "R 16"), (bytes([4, 0, 0, 0, 0]), "R 16"),
         (bytes([255, 0, 0, 0, 36]), "R 16"), (b"\x05" + WORD[1:], "R 16"),
         (b"\x06" + credit(0, 1)[1:], "R 16"), (b"\x07" + TICK[1:], "R 16"),
         (credit(0, 1, filler=1), "R 16"),
         (credit(9, 99, filler=255), "R 16"),
         (bytes([3, 1, 0, 0, 0]), "R 16"), (bytes([3, 0, 1, 0, 0]), "R 16"),
         (bytes([3, 0, 0, 1, 0]), "R 16"), (bytes([3, 0, 0, 0, 1]), "R 16"),
         (ask(0), "G 1"),           # no tick was made
         (TICK, "T 0")),

    # domelink has no record for a lend: flow 0 books with both of its cells.
    edge("a lend is no call of domelink", BASE,
         (lend(1), "R 16"), (lend(3), "R 16"), (lend(4), "R 16"),
         (lend(0), "R 16"), (lend(1, fillers=(0, 1)), "R 16"),
         (ask(0), "G 1"), (ask(0), "G 2"),
         (TICK, "T 0"), (lend(2), "R 16")),

    # Nor has it one for a reset: flow 0 stays in frame 1.
    edge("a reset is no call of domelink", BASE,
         (RESET, "R 16"), (ask(0, departure=7), "R 20"),
         (RESET, "R 16"), (ask(0), "G 4")),
]

# Rule 13.3: a last record of 1 to 4 bytes, whatever they would begin; and
# none at all.
LAST_RECORDS = [
    edge("a last record of %d bytes" % size, BASE,
         (ask(0), "G 1"), (tail, "R 16"))
    for size, tail in enumerate(
        [TICK[:1], credit(0, 1)[:2], WORD[:3], credit(0, 1)[:4]], start=1)
] + [
    edge("no call at all", BASE),
    edge("one byte after the plan", BASE, (b"\x14", "R 16")),
]

# The stated length ends the plan; what follows is records, not entries.
AFTER_THE_PLAN = Edge(
    "four bytes after the stated length",
    BASE + bytes([2, 2, 3, 9]), ["P 0", "R 16"])

EDGES = NO_CALLS + LAST_RECORDS + [AFTER_THE_PLAN]

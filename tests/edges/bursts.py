"""Edges of burst, for allcalls: results and positions in order, what is left
untouched, and records that make no burst.  Those of its words' numbers stand
with the other edges of the quantum number.
"""

import call_bytes
from edges.edge_maker import (
    BASE, RESET, TICK, ask, burst, credit, edge, lend, plan)

ROOMY = plan(4, 2, (2, 4), (2, 4))      # T = 8, two flows
ONE_SHARE = plan(4, 2, (1, 8))          # T = 8, one flow
SINGLE_SLOT = plan(1, 2, (1, 4))        # every tick is a frame change
WIDE = plan(64, 4, (64, 255))           # T = 256
BAD = ask(7)                            # refused with 8
NO_WORDS = call_bytes.burst([])

IN_ORDER = [
    # Rule 11.1: both cells of flow 0, then 12 twice: a refusal ends nothing.
    edge("burst: on after a refusal", BASE,
         (burst(ask(0), ask(0, quantum=1), ask(0, quantum=2),
                ask(0, quantum=2), ask(1)),
          "B 0 1", "B 0 2", "B 12 0", "B 12 0", "B 0 3"),
         (TICK, "T 0"), (TICK, "T 0"), (TICK, "T 1"), (TICK, "T -")),

    # Each word finds what those before it booked.
    edge("burst: two flows in turn", BASE,
         (burst(ask(0), ask(1), ask(0, quantum=1), ask(1, quantum=1)),
          "B 0 1", "B 0 2", "B 0 3", "B 0 4"),
         (ask(1, quantum=2), "R 12")),

    # At CP = 7 the next frame begins at position 0: a grant of it differs from
    # a refusal in its result alone.
    edge("burst: position 0", BASE,
         *[(TICK, "T -")] * 7,
         (burst(ask(0), ask(0, departure=8, quantum=1)), "B 0 0", "B 10 0"),
         (TICK, "T 0")),

    edge("burst: refusals by the word alone", BASE,
         (burst(BAD, ask(0), ask(0, departure=8, quantum=1),
                ask(0, quantum=1, to=8), ask(0, quantum=1)),
          "B 8 0", "B 0 1", "B 10 0", "B 9 0", "B 0 2"),
         (ask(1), "G 3")),

    # A word after 3 leaves flow 0 in the next frame, where its second stays;
    # flow 1 finds nothing after 7, and then all but 4 and 5.
    edge("burst: departures", BASE,
         (burst(ask(0, departure=3), ask(0, quantum=1), ask(0, quantum=2),
                ask(1, departure=2), ask(1, departure=7, quantum=1),
                ask(1, quantum=1)),
          "B 0 4", "B 0 5", "B 11 0", "B 0 3", "B 20 0", "B 0 6"),
         (ask(1, quantum=2), "R 12")),

    edge("burst: the share is spent", SINGLE_SLOT,
         (burst(ask(0), ask(0, quantum=1), ask(0, quantum=1)),
          "B 0 1", "B 11 0", "B 11 0"),
         (TICK, "T 0"),
         (burst(ask(0, quantum=1)), "B 0 0")),

    # Slots 1 to 255 are booked, 16 at a time; the newest frame's share is
    # spent then, as are the cells.
    edge("burst: 256 positions", WIDE,
         *[(burst(*[ask(0, quantum=16 * row + place)
                    for place in range(16)]),
            *["B 0 %d" % (16 * row + place + 1) for place in range(16)])
           for row in range(15)],
         (burst(*[ask(0, quantum=240 + place) for place in range(16)]),
          *["B 0 %d" % (241 + place) for place in range(15)], "B 11 0")),

    # Credits and lends between bursts count.
    edge("burst: credits and lends between", BASE,
         (burst(ask(0), ask(0, quantum=1)), "B 0 1", "B 0 2"),
         (lend(3), "L 1"),
         (credit(0, 4), "C"),
         (burst(ask(0, quantum=2), ask(1), ask(1, quantum=1)),
          "B 0 4", "B 0 3", "B 12 0")),
]

RESETS = [
    # Slot 1 was booked and is marked.  The share of frame 0 is whole again:
    # one slot of it, one of frame 1, and no more.
    edge("burst: right after a granted reset", ONE_SHARE,
         (ask(0), "G 1"), (credit(0, 1), "C"), (TICK, "T 0"), (RESET, "Z"),
         (burst(ask(0, quantum=1), ask(0, quantum=2), ask(0, quantum=3)),
          "B 0 2", "B 0 4", "B 11 0"),
         (lend(1), "R 17"), (RESET, "R 23"), (TICK, "T 0")),

    # The same calls without it: frame 0 has had its slot.
    edge("burst: without a reset", ONE_SHARE,
         (ask(0), "G 1"), (credit(0, 1), "C"), (TICK, "T 0"),
         (burst(ask(0, quantum=1), ask(0, quantum=2)), "B 0 4", "B 11 0"),
         (TICK, "T -")),

    # A burst that books stands in its way; one that is refused leaves IF the
    # newest frame, and the reset puts it back.
    edge("burst: a reset after a grant", BASE,
         (burst(ask(0, departure=7), ask(1)), "B 20 0", "B 0 1"),
         (RESET, "R 23"), (ask(0), "G 4")),
    edge("burst: a reset after refusals", BASE,
         (burst(ask(0, departure=7), ask(1, departure=7)),
          "B 20 0", "B 20 0"),
         (RESET, "Z"), (burst(ask(0), ask(1)), "B 0 1", "B 0 2")),

    # After a refused reset, in a slot that is lent: flow 1 has one cell left.
    edge("burst: right after a refused reset", BASE,
         (lend(2), "L 1"), (RESET, "R 23"),
         (burst(ask(1), ask(1, quantum=1), ask(0)),
          "B 0 1", "B 12 0", "B 0 2")),
]

HOW_MANY = [
    edge("burst: no records", BASE, (NO_WORDS,), (ask(0), "G 1"), (NO_WORDS,)),

    edge("burst: 16 records", ROOMY,
         (burst(*[BAD] * 15, ask(0)), *["B 8 0"] * 15, "B 0 1"),
         (ask(1), "G 2")),

    # Rule 11.2: a 17th is untouched, and books nothing.
    edge("burst: 17 records", ROOMY,
         (burst(*[BAD] * 16, ask(0)), *["B 8 0"] * 16, "B 255 255"),
         (ask(1), "G 1")),

    edge("burst: 20 records", ROOMY,
         (burst(ask(0), ask(0, quantum=1), ask(1), *[BAD] * 13,
                *[ask(1, quantum=1)] * 4),
          "B 0 1", "B 0 2", "B 0 3", *["B 8 0"] * 13, *["B 255 255"] * 4),
         (ask(1, quantum=1), "G 4")),
]

NO_BURSTS = [
    # Rule 14.3: five bytes are used up, and what follows is a record of its
    # own.
    edge("burst: a count above 20", BASE,
         (call_bytes.burst([], count=21), "R 16"), (ask(0), "G 1"),
         (call_bytes.burst([], count=255), "R 16"), (TICK, "T 0")),

    edge("burst: fillers", BASE,
         (call_bytes.burst([], (1, 0, 0), 2), "R 16"), (ask(0), "G 1"),
         (call_bytes.burst([], (0, 1, 0), 2), "R 16"),
         (call_bytes.burst([], (0, 0, 255), 0), "R 16"),
         (burst(ask(0, quantum=1)), "B 0 2")),
]

# Fewer bytes than the words have: one line for all the rest, and no request.
CUT_OFF = [
    edge("burst: %s" % what, BASE,
         (ask(0), "G 1"), (call_bytes.burst([0x24000400] * 3)[:size], "R 16"))
    for size, what in [(1, "one byte of the record"),
                       (4, "four bytes of the record"),
                       (5, "no words"), (6, "one byte of the words"),
                       (10, "one word and a byte"),
                       (16, "all but a byte")]
]

EDGES = IN_ORDER + RESETS + HOW_MANY + NO_BURSTS + CUT_OFF

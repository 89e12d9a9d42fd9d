"""Edges of lending in turn, for allcalls: which flow of the mask gets the
slot."""

from edges.edge_maker import BASE, RESET, TICK, ask, credit, edge, lend, plan

THREE = plan(4, 2, (1, 8), (1, 8), (1, 8))      # T = 8
ONE_CELL = plan(4, 2, (1, 8), (1, 1), (1, 8))   # flow 1 has one cell
SIXTEEN = plan(16, 2, *[(1, 4)] * 16)

WHOSE_TURN = [
    # Rule 9.3: flow 2 is lent to, though flow 0 was looked at first: then
    # flow 0.
    edge("turn: after the last one lent to", THREE,
         (lend(4), "L 2"), (TICK, "T -"), (lend(3), "L 0")),
    edge("turn: one after the other", THREE,
         *[(call, line) for flow in (0, 1, 2, 0, 1, 2, 0)
           for call, line in ((lend(7), "L %d" % flow), (TICK, "T -"))]),
    edge("turn: two flows", BASE,
         (lend(3), "L 0"), (TICK, "T -"), (lend(3), "L 1"), (TICK, "T -"),
         (lend(3), "L 0"), (TICK, "T -"), (lend(3), "L 1"), (TICK, "T -"),
         (lend(3), "R 18")),
    # Past flow 15 comes flow 0, not flow 16.
    edge("turn: sixteen flows", SIXTEEN,
         (lend(0x8000), "L 15"), (TICK, "T -"), (lend(0xffff), "L 0"),
         (TICK, "T -"), (lend(0x8003), "L 1"), (TICK, "T -"),
         (lend(0x8003), "L 15"), (TICK, "T -"), (lend(0x8000), "L 15"),
         (TICK, "T -"), (lend(0x4002), "L 1"), (TICK, "T -"),
         (lend(0x4002), "L 14")),
    edge("turn: one flow", plan(4, 2, (1, 8)),
         (lend(1), "L 0"), (TICK, "T -"), (lend(1), "L 0")),

    # Going round it comes back to the last one, and goes on after it.
    edge("turn: back to the last one", THREE,
         (lend(1), "L 0"), (TICK, "T -"), (lend(1), "L 0"), (TICK, "T -"),
         (lend(7), "L 1")),
    edge("turn: changing masks", THREE,
         (lend(6), "L 1"), (TICK, "T -"), (lend(5), "L 2"), (TICK, "T -"),
         (lend(6), "L 1"), (TICK, "T -"), (lend(3), "L 0"), (TICK, "T -"),
         (lend(5), "L 2"), (TICK, "T -"), (lend(5), "L 0"), (TICK, "T -"),
         (lend(6), "L 1")),

    # Flow 1 has its cell booked at slot 1; it has no turn more for the one
    # that it missed.
    edge("turn: a flow that can't take the slot", ONE_CELL,
         (lend(7), "L 0"), (ask(1), "G 1"), (TICK, "T 1"), (lend(7), "R 17"),
         (TICK, "T -"), (lend(7), "L 2"), (TICK, "T -"), (lend(7), "L 0"),
         (credit(1, 4), "C"), (TICK, "T -"), (lend(7), "L 1"),
         (TICK, "T -"), (lend(7), "L 2")),
]

WHAT_LEAVES_IT = [
    edge("turn: refused lends", THREE,
         (lend(1), "L 0"), (lend(7), "R 17"), (TICK, "T -"),
         (lend(0), "R 18"), (lend(8), "R 8"), (lend(0xffff), "R 8"),
         (lend(7), "L 1")),
    # Requests, credits, and ticks past a frame change.
    edge("turn: other calls", THREE,
         (lend(1), "L 0"), (credit(0, 1), "C"), (ask(0), "G 1"),
         (ask(1), "G 2"), (ask(1, departure=7), "R 20"),
         (credit(2, 1), "R 15"), (TICK, "T 0"), (TICK, "T 1"), (TICK, "T -"),
         (TICK, "T -"), (lend(7), "L 1")),
    # The lent cell is held at slot 0, and then from slot 1 on.
    edge("turn: refused resets", THREE,
         (lend(1), "L 0"), (RESET, "R 23"), (TICK, "T -"), (RESET, "R 23"),
         (lend(7), "L 1")),
]

AFTER_A_RESET = [
    edge("turn: after a reset", THREE,
         (lend(1), "L 0"), (credit(0, 1), "C"), (TICK, "T -"), (RESET, "Z"),
         (lend(7), "L 0"), (TICK, "T -"), (lend(7), "L 1")),
    edge("turn: after each of two resets", THREE,
         (lend(2), "L 1"), (credit(1, 1), "C"), (TICK, "T -"), (RESET, "Z"),
         (lend(7), "L 0"), (credit(0, 2), "C"), (TICK, "T -"), (RESET, "Z"),
         (lend(7), "L 0"), (TICK, "T -"), (lend(6), "L 1")),
]

EDGES = WHOSE_TURN + WHAT_LEAVES_IT + AFTER_A_RESET

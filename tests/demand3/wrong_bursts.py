"""Listings with bursts, for allcalls, that the check of demand 3 has to send
back, each with words of the fault; and right ones, with the k up to which the
least count is tried for each flow.
"""

import call_bytes
from edges.bursts import BAD
from edges.edge_maker import BASE, TICK, ask, burst, edge, plan

ROOMY = plan(1, 2, (1, 255))            # every tick is a frame change
NEXT = ask(0, quantum=1)

WRONG = [
    (edge("a burst grants a slot twice", BASE,
          (burst(ask(0), ask(1)), "B 0 1", "B 0 1")),
     "slot 1 granted to 0 and to 1"),
    (edge("a burst grants more than the cells", BASE,
          (burst(ask(0), NEXT, ask(0, quantum=2)),
           "B 0 1", "B 0 2", "B 0 4")), "flow 0 holds 3 at slot 4"),
    (edge("a burst leaves the position of a refusal", BASE,
          (burst(BAD), "B 8 255")), "a burst's record answered 'B 8 255'"),
    (edge("a burst ends at a refusal", BASE,
          (burst(BAD, ask(0)), "B 8 0", "B 255 255")),
     "a burst's record answered 'B 255 255'"),
    (edge("a burst handles a 17th record", BASE,
          (burst(*[BAD] * 16, ask(0)), *["B 8 0"] * 16, "B 0 1")),
     "a burst's record past 16 answered 'B 0 1'"),
    (edge("a granted slot of a burst doesn't come up", BASE,
          (burst(ask(0)), "B 0 1"), (TICK, "T -")), "slot 1"),
    (edge("a burst without records has a line", BASE,
          (call_bytes.burst([]), "R 16")), "lines are due"),
    (edge("a burst of 21 records is one", BASE,
          (call_bytes.burst([], count=21), "B 0 1")), "no call"),
    (edge("a burst counts in no least", ROOMY,
          (burst(ask(0)), "B 11 0")), "below the least"),
]

RIGHT = [
    (edge("a burst asks until it is refused", ROOMY,
          (burst(ask(0), NEXT), "B 0 1", "B 11 0"),
          (TICK, "T 0"), (burst(NEXT, ask(0, quantum=2)), "B 0 0", "B 11 0")),
     {0: 1}),
]

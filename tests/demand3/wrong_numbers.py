"""Listings that the check of demand 3 has to send back since a word with
another number is granted, or one with the expected number is refused; and
right ones, with the k up to which the least count is tried for each flow.
"""

from edges.edge_maker import (
    BASE, RESET, TICK, ask, burst, credit, edge, plan)
from edges.numbers import ONE_BY_ONE, granted

EACH_FRAME = plan(1, 2, (1, 255))       # F = 1, W = 2, share 1
LEAST = "below the least"
DUE = "flow %d is granted number %d, where %d is due"

WRONG = [
    (edge("grants a number twice", BASE,
          (ask(0), "G 1"), (ask(0, quantum=0), "G 2")), DUE % (0, 0, 1)),
    (edge("grants a number ahead", BASE,
          (ask(0, quantum=1), "G 1")), DUE % (0, 1, 0)),
    (edge("numbers all flows together", BASE,
          (ask(0), "G 1"), (ask(1, quantum=1), "G 2")), DUE % (1, 1, 0)),
    # The least is (W - 1) x share, for the expected numbers.
    (edge("refuses the expected number", BASE,
          (ask(0, quantum=0), "R 24")), LEAST),
    (edge("expects the number of all flows", BASE,
          (ask(0), "G 1"), (ask(1, quantum=0), "R 24")), LEAST),
    # With k = 1 it is 2: number 1 again, after the refusal in frame 0.
    (edge("counts a refusal", EACH_FRAME,
          (ask(0, quantum=0), "G 1"), (ask(0, quantum=1), "R 11"),
          (TICK, "T 0"), (ask(0, quantum=1), "R 24")), LEAST),
    # After 1,000 grants of slots 1 to 1,000, in frame 15, the least is
    # (3 + 15) x 64 = 1,152, of a stream that was refused in each frame.
    # Here it is refused in none before, so that only the number tells.
    (edge("counts modulo 1,000", ONE_BY_ONE,
          *[step for slot in range(1, 1001) for step in granted(slot)],
          (ask(0, quantum=0), "G %d" % (1001 % 256))), DUE % (0, 0, 1000)),
]

# Of each frame one slot is granted, and then 11; the number goes on.
RIGHT = [
    (edge("a wrong number takes the premise away", BASE,
          (ask(0, quantum=1), "R 24"), (ask(0, quantum=2), "R 24")), {}),
    (edge("a wrong number of another flow does not", BASE,
          (ask(1, quantum=1), "R 24"), (ask(0), "G 1"), (credit(0, 1), "C"),
          (ask(0), "G 2"), (credit(0, 2), "C"), (ask(0), "G 4"),
          (credit(0, 4), "C"), (ask(0), "G 5"), (credit(0, 5), "C"),
          (ask(0), "R 11")), {0: 0}),
]

# With resets and bursts, for allcalls.
ALLCALLS_WRONG = [
    # The least since the reset is (W - 1) x share = 2.
    (edge("starts the numbers afresh with a reset", BASE,
          (ask(0), "G 1"), (credit(0, 1), "C"), (TICK, "T 0"), (RESET, "Z"),
          (ask(0, quantum=1), "R 24")), LEAST),
    (edge("grants 0 again after a reset", BASE,
          (ask(0), "G 1"), (credit(0, 1), "C"), (TICK, "T 0"), (RESET, "Z"),
          (ask(0, quantum=0), "G 2")), DUE % (0, 0, 1)),
    (edge("looks at a number before the burst alone", BASE,
          (burst(ask(0), ask(0, quantum=0)), "B 0 1", "B 0 2")),
     DUE % (0, 0, 1)),
    # The least is 2 in frame 0.
    (edge("counts the words of a burst after it", BASE,
          (burst(ask(0), ask(0, quantum=1)), "B 0 1", "B 24 0")), LEAST),
]

ALLCALLS_RIGHT = [
    # A wrong number before the reset counts no more.
    (edge("the premise on numbers begins afresh", EACH_FRAME,
          (ask(0, quantum=5), "R 24"), (RESET, "Z"), (ask(0), "G 1"),
          (ask(0), "R 11")), {0: 0}),
    # Number 0 again takes the premise away, as 1 is due.
    (edge("numbers counted since a reset are wrong", BASE,
          (ask(0), "G 1"), (credit(0, 1), "C"), (TICK, "T 0"), (RESET, "Z"),
          (ask(0, quantum=0), "R 24")), {}),
    (edge("a wrong number in a burst takes the premise away", BASE,
          (burst(ask(0, quantum=1), ask(0)), "B 24 0", "B 0 1")), {}),
]

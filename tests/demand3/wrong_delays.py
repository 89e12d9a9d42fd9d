"""Listings that meet demand 3 and that the check has to send back since a
request is refused that is prompt, or granted late to a flow that is modest;
and right ones, with how often each promise was put to the test.
"""

from demand3.delays import LATEST, PROMPT, SOON
from edges.edge_maker import RESET, TICK, ask, burst, credit, edge, lend, plan

ONE_CELL = plan(2, 2, (1, 1))           # F = 2, W = 2, share 1
THREE = plan(2, 3, (1, 9))              # the same with W = 3 and 9 cells
FOUR = plan(2, 4, (1, 9))
LATE_CELL = plan(2, 3, (2, 1))          # F = 2, W = 3, share 2, one cell
NEIGHBOUR = plan(2, 2, (1, 9), (1, 9))  # F = 2, W = 2, two flows of share 1
IDLE = (TICK, "T -")
PROMPTLY = "though it is prompt"
MODEST = "though it is modest"

COME, TO_COME, IN_NEWEST = PROMPT
IN_ITS_FRAME, IN_THE_NEXT, AHEAD, AHEAD_NEXT, SHARE_DUE = SOON

WRONG = [
    # Rule 22.3: the cell is free from slot 3 on, and slot 3 is open.
    (edge("12 after the first 12", ONE_CELL,
          (ask(0), "G 1"), (ask(0), "R 12"), (TICK, "T 0"),
          (credit(0, 3), "C"), IDLE, (ask(0), "R 12")),
     "flow 0 is refused with 12, " + PROMPTLY),
    (edge("12 after the first 12, in a burst", ONE_CELL,
          (burst(ask(0), ask(0)), "B 0 1", "B 12 0"), (TICK, "T 0"),
          (credit(0, 3), "C"), IDLE, (burst(ask(0)), "B 12 0")),
     "flow 0 is refused with 12, " + PROMPTLY),
    # Rule 22.5: slot 2 is in frame 1, and frame 3 is the newest.
    (edge("moved to the newest frame at a frame change", THREE,
          (ask(0), "G 1"), (TICK, "T 0"), IDLE, (ask(0), "G 0")),
     "slot 6 is granted 2 frames after the tile of slot 2 is due"),
    (edge("granted a frame late", THREE, (ask(0), "G 4")),
     "slot 4 is granted 2 frames after the tile of slot 0 is due"),
    (edge("granted a frame late, asked ahead", FOUR,
          (ask(0, departure=2), "G 6")),
     "slot 6 is granted 2 frames after the tile of slot 2 is due"),
    # Its grants go 1, 3, 5, 7; slot 0 of the next round is slot 8.
    (edge("granted late after frames in time", FOUR,
          (ask(0), "G 1"), (TICK, "T 0"), IDLE, (ask(0), "G 3"),
          (TICK, "T 0"), IDLE, (ask(0), "G 0")),
     "slot 8 is granted 2 frames after the tile of slot 4 is due"),
    # One grant was made in this frame, and none is due in frame 1.
    (edge("refused ahead, with nothing due in that frame", THREE,
          (ask(0), "G 1"), (ask(0, departure=2), "R 11")),
     "flow 0 is refused with 11, " + MODEST),
    # The cell is free from slot 4 on, the first of the newest frame.
    (edge("refused with room in the newest frame alone", LATE_CELL,
          (ask(0), "G 1"), (credit(0, 4), "C"), (ask(0), "R 12")),
     "flow 0 is refused with 12, " + PROMPTLY),
    # After a tile of the newest frame demand 3 promises nothing.
    (edge("refused after a tile of the newest frame", NEIGHBOUR,
          (ask(0, departure=3), "R 20"), (ask(0), "R 11")),
     "flow 0 is refused with 11, " + PROMPTLY),
]

# Late after a reset, and before it not modest.
AFTER_RESET = (
    (ask(0, departure=5), "R 20"), (RESET, "Z"))

ALLCALLS_WRONG = [
    (edge("granted a frame late after a reset", THREE,
          *AFTER_RESET, (ask(0), "G 4")),
     "slot 4 is granted 2 frames after the tile of slot 0 is due"),
    # In slot 2, still of frame 0, nothing is held; frame 1 is the newest.
    (edge("a grant before a reset counts after it", plan(3, 2, (1, 9)),
          (ask(0), "G 1"), (credit(0, 2), "C"), (TICK, "T 0"), IDLE,
          (RESET, "Z"), (ask(0, departure=5), "R 20"), (ask(0), "R 11")),
     "flow 0 is refused with 11, " + PROMPTLY),
]

RIGHT = [
    (edge("refused without room in the next frame", ONE_CELL,
          (ask(0), "G 1"), (ask(0), "R 12")),
     {COME: 1, IN_ITS_FRAME: 1}),
    (edge("granted with room in the newest frame alone", LATE_CELL,
          (ask(0), "G 1"), (credit(0, 4), "C"), (ask(0), "G 4")),
     {COME: 1, IN_ITS_FRAME: 1, IN_NEWEST: 1}),
    (edge("refused without room in the newest frame's first slot", LATE_CELL,
          (ask(0), "G 1"), (credit(0, 5), "C"), (ask(0), "G 5"),
          (ask(0), "R 12")), {COME: 1, IN_ITS_FRAME: 1}),
    (edge("refused without its number", THREE,
          (ask(0, quantum=1), "R 24"), (ask(0), "G 1")),
     {COME: 1}),
    # Rules 22.2 and 22.11: not timely.
    (edge("refused for a tile that is due in the newest frame", THREE,
          (ask(0, departure=5), "R 20")), {}),
    # Rule 22.4: not modest after the refusal: frame 2 is its own from there
    # on.
    (edge("late after a request that was not timely", FOUR,
          (ask(0, departure=7), "R 20"), (ask(0), "G 6"), (ask(0), "R 11")),
     {COME: 1}),
    # The third request is granted in frame 2, since the share of frame 0 was
    # passed by the second.
    (edge("late after more than its share", THREE,
          (ask(0), "G 1"), (ask(0), "G 2"), (ask(0), "G 4")),
     {COME: 1, IN_ITS_FRAME: 1}),
    (edge("refused, the share being due already", plan(1, 2, (1, 9)),
          (ask(0), "G 1"), (ask(0), "R 11")),
     {COME: 1, IN_THE_NEXT: 1, LATEST: 1, SHARE_DUE: 1}),
    # Slot 1 and 2 are the neighbour's, and slot 3 is left in frame 1.
    (edge("attained: 2F - 1 slots", NEIGHBOUR,
          (ask(1), "G 1"), (ask(1), "G 2"), (ask(0), "G 3")),
     {COME: 2, IN_ITS_FRAME: 1, IN_THE_NEXT: 1, LATEST: 1}),
    # Due in the frames 0, 1 and 1: the third is one more than the share.
    (edge("asked ahead", FOUR,
          (ask(0), "G 1"), (ask(0, departure=2), "G 3"),
          (ask(0, departure=3), "G 4"), (ask(0, departure=4), "G 6")),
     {COME: 1, IN_ITS_FRAME: 1, AHEAD: 1}),
    (edge("asked ahead, in the next frame", FOUR,
          (ask(0, departure=3), "G 4")), {TO_COME: 1, AHEAD_NEXT: 1}),
]

ALLCALLS_RIGHT = [
    # 12 and 20 before the reset count no more after it.
    (edge("modest again after a reset", THREE,
          *AFTER_RESET, (ask(0), "G 1")), {COME: 1, IN_ITS_FRAME: 1}),
    # The lent slot is held, and leaves no cell in the next frame.
    (edge("refused without room after a lend", ONE_CELL,
          (lend(1), "L 0"), (ask(0), "R 12")), {}),
]

"""Edges of the quantum number (rules 5.2 and 5.3): the link expects 0, 1, 2
and so on modulo 1,024 of each flow.  Refusal 24 stands after 10, and changes
nothing.
"""

from edges.edge_maker import (
    BASE, RESET, TICK, ask, burst, credit, edge, lend, plan)

ONE_SLOT = plan(1, 2, (1, 4))           # F = 1, W = 2
ROOMY = plan(4, 2, (2, 9), (2, 9))      # T = 8, shares 2 and 2
WRONG = (1, 2, 511, 512, 1000, 1022, 1023)


def wrong(flow, *numbers, **fields):
    return [(ask(flow, quantum=number, **fields), "R 24")
            for number in numbers]


def words(flow, *numbers):
    return [ask(flow, quantum=number) for number in numbers]


EXPECTED = [
    # Rule 5.3: 0 first, and then one more with each grant.
    edge("number: 0 on a fresh link", BASE,
         *wrong(0, *WRONG), (ask(0, quantum=0), "G 1")),
    edge("number: one behind and one ahead", BASE,
         (ask(0, quantum=0), "G 1"), *wrong(0, 0, 2),
         (ask(0, quantum=1), "G 2"), *wrong(0, 1, 3)),
    # Each flow counts its own grants.
    edge("number: of another flow", ROOMY,
         (ask(0, quantum=0), "G 1"), (ask(0, quantum=1), "G 2"),
         *wrong(1, 2, 1), (ask(1, quantum=0), "G 3"),
         *wrong(0, 0, 1, 3), (ask(0, quantum=2), "G 4"),
         *wrong(1, 3, 2), (ask(1, quantum=1), "G 5")),
]

NOTHING_CHANGES = [
    # Departure 7 would leave IF at frame 1, by 20.
    edge("number: 24 leaves the frame", BASE,
         *wrong(0, 1, departure=7), (ask(0), "G 1")),
    # C is 1 in frame 0; a departure in frame 1 would lose it.
    edge("number: 24 leaves the rest of C", ROOMY,
         (ask(0), "G 1"), *wrong(0, 0, departure=4), (ask(0), "G 2")),
    edge("number: 24 takes no slot and no cell", BASE,
         *wrong(0, 5, 6, 7), (TICK, "T -"), (credit(0, 2), "R 15"),
         (ask(0), "G 2"), (ask(0), "G 3"), (TICK, "T 0")),
]

IN_ORDER = [
    # Rule 5.2: 24 comes after 10.  Departure 8 is T.
    edge("number: 8, 9 and 10 before 24", BASE,
         (ask(2, quantum=7), "R 8"), (ask(63, quantum=7), "R 8"),
         (ask(0, quantum=7, to=8), "R 9"),
         (ask(0, quantum=7, departure=8), "R 10"),
         (ask(0, quantum=7), "R 24"), (ask(0), "G 1")),
    edge("number: 24 before 11", ONE_SLOT,
         (ask(0, quantum=0), "G 1"), (ask(0, quantum=0), "R 24"),
         (ask(0, quantum=1), "R 11"),
         (ask(0, quantum=0, departure=2), "R 10")),
    edge("number: 24 before 12", BASE,
         (ask(0), "G 1"), (ask(0), "G 2"), *wrong(0, 1, 3), (ask(0), "R 12")),
    edge("number: 24 before 20", BASE,
         *wrong(0, 1, departure=7), (ask(0, departure=7), "R 20")),
]

LEFT_ALONE = [
    # 11, 12, 20 and the refusals of the word's own fields.
    edge("number: refusals leave it", BASE,
         (ask(0, to=8), "R 9"), (ask(0, departure=8), "R 10"),
         (ask(0, departure=7), "R 20"), *wrong(0, 1),
         (ask(0, quantum=0), "G 4"), (ask(0, quantum=1), "G 5"),
         (ask(0, quantum=2), "R 11"), *wrong(0, 3), (ask(0), "R 11")),
    edge("number: it is the same again after 12", BASE,
         (ask(0), "G 1"), (ask(0), "G 2"), (ask(0, quantum=2), "R 12"),
         (credit(0, 4), "C"), *wrong(0, 3), (ask(0, quantum=2), "G 4")),
    edge("number: credits leave it", BASE,
         (ask(0), "G 1"), (credit(0, 1), "C"), (credit(0, 1), "R 15"),
         *wrong(0, 0, 2), (ask(0, quantum=1), "G 2")),
    # IF is the old head, and then ahead of it.
    edge("number: frame changes leave it", ROOMY,
         (ask(0), "G 1"), (TICK, "T 0"), *[(TICK, "T -")] * 3,
         *wrong(0, 0, 2), (ask(0, quantum=1), "G 5"), (ask(0), "G 6"),
         (ask(0), "G 0"), (TICK, "T 0"), (TICK, "T 0"), (TICK, "T -"),
         (TICK, "T 0"), *wrong(0, 0, 3), (ask(0, quantum=4), "G 1")),
]

# F = 64 and W = 4, one flow with the whole share and 255 cells.  At slot t it
# is granted slot t + 1, whose cell is back from slot t + 2 on, and the slot
# comes up.  Grant number 1,023 has the number 1,023, and the next one 0.
ONE_BY_ONE = plan(64, 4, (64, 255))


def granted(slot):
    """Slot `slot`, the grant before it being slot - 1."""
    return [(ask(0), "G %d" % (slot % 256)),
            (credit(0, (slot + 1) % 256), "C"), (TICK, "T 0")]


ROUND_AGAIN = edge(
    "number: 1,023, and then 0", ONE_BY_ONE,
    *[step for slot in range(1, 1001) for step in granted(slot)],
    *wrong(0, 0, 999, 1001), (ask(0, quantum=1000), "G %d" % (1001 % 256)),
    (credit(0, 1002 % 256), "C"), (TICK, "T 0"),
    *[step for slot in range(1002, 1024) for step in granted(slot)],
    *wrong(0, 0, 1022), (ask(0, quantum=1023), "G %d" % (1024 % 256)),
    (credit(0, 1025 % 256), "C"), (TICK, "T 0"),
    *wrong(0, 1023, 1, 1000), (ask(0, quantum=0), "G %d" % (1025 % 256)),
    *wrong(0, 0, 1023, 2), (ask(0, quantum=1), "G %d" % (1026 % 256)))

EDGES = (EXPECTED + NOTHING_CHANGES + IN_ORDER + LEFT_ALONE + [ROUND_AGAIN])

# ---- for allcalls

# Lends and resets leave it.
OTHER_CALLS = [
    edge("number: lends leave it", BASE,
         (lend(1), "L 0"), *wrong(0, 1), (ask(0, quantum=0), "G 1"),
         (lend(2), "R 17"), (TICK, "T 0"), (TICK, "T -"), (lend(2), "L 1"),
         *wrong(1, 1), (ask(1, quantum=0), "G 3")),
    edge("number: resets leave it", BASE,
         (ask(0), "G 1"), (credit(0, 1), "C"), (RESET, "R 23"),
         *wrong(0, 0), (TICK, "T 0"), (RESET, "Z"), *wrong(0, 0, 2),
         (ask(0, quantum=1), "G 2")),
    edge("number: each flow's own after a reset", BASE,
         (ask(0), "G 1"), (ask(1), "G 2"), (credit(1, 2), "C"),
         (ask(1), "G 3"), (credit(1, 3), "C"), (credit(0, 1), "C"),
         (TICK, "T 0"), (TICK, "T 1"), (TICK, "T 1"), (RESET, "Z"),
         *wrong(0, 0, 2), *wrong(1, 0, 1), (ask(1, quantum=2), "G 4"),
         (ask(0, quantum=1), "G 5")),
]

# Both cells of flow 0 are booked by 0 and 1.
BURSTS = [
    edge("number: it moves in a burst", BASE,
         (burst(*words(0, 0, 1, 2, 2)), "B 0 1", "B 0 2", "B 12 0", "B 12 0")),
    edge("number: the same twice in a burst", BASE,
         (burst(*words(0, 0, 0)), "B 0 1", "B 24 0"), *wrong(0, 0),
         (ask(0, quantum=1), "G 2")),
    edge("number: one ahead in a burst", BASE,
         (burst(*words(0, 1, 0, 2, 1)), "B 24 0", "B 0 1", "B 24 0", "B 0 2"),
         (ask(0, quantum=2), "R 12")),
    # Departure 7 would leave IF at frame 1.
    edge("number: 24 in a burst leaves the frame", BASE,
         (burst(ask(0, quantum=1, departure=7), ask(0, quantum=0)),
          "B 24 0", "B 0 1")),
    edge("number: each flow's own in a burst", BASE,
         (burst(ask(0), *words(1, 1, 0), ask(0), *words(1, 2, 1)),
          "B 0 1", "B 24 0", "B 0 2", "B 0 3", "B 24 0", "B 0 4")),
    edge("number: 8, 9 and 10 before 24 in a burst", BASE,
         (burst(ask(2, quantum=7), ask(0, quantum=7, to=8),
                ask(0, quantum=7, departure=8), ask(0, quantum=7), ask(0)),
          "B 8 0", "B 9 0", "B 10 0", "B 24 0", "B 0 1")),
    edge("number: refusals in a burst leave it", ONE_SLOT,
         (burst(*words(0, 0, 1, 1, 0, 2)),
          "B 0 1", "B 11 0", "B 11 0", "B 24 0", "B 24 0"),
         (TICK, "T 0"), (burst(*words(0, 2, 1)), "B 24 0", "B 0 0")),
    # The 17th isn't asked.
    edge("number: sixteen times 24", BASE,
         (burst(*words(0, *[5] * 16), ask(0)), *["B 24 0"] * 16, "B 255 255"),
         (ask(0, quantum=0), "G 1")),
    edge("number: requests and bursts count together", ROOMY,
         (ask(0), "G 1"), (burst(*words(0, 0, 1, 2)),
                           "B 24 0", "B 0 2", "B 0 4"), *wrong(0, 2, 4),
         (ask(0, quantum=3), "G 5"), (burst(*words(0, 3)), "B 24 0")),
    # Slots 1,021 to 1,026: words 1,020 to 1,023, and then 0 and 1.
    edge("number: 1,023 and 0 in a burst", ONE_BY_ONE,
         *[step for slot in range(1, 1021) for step in granted(slot)],
         (burst(*words(0, 1020, 1021, 1022, 0, 1023, 1023, 0, 1, 1)),
          "B 0 253", "B 0 254", "B 0 255", "B 24 0", "B 0 0", "B 24 0",
          "B 0 1", "B 0 2", "B 24 0"), *wrong(0, 1, 1023, 3),
         (ask(0, quantum=2), "G 3")),
    edge("number: a reset between bursts leaves it", BASE,
         (burst(ask(0), ask(1)), "B 0 1", "B 0 2"), (credit(0, 1), "C"),
         (credit(1, 2), "C"), (TICK, "T 0"), (TICK, "T 1"), (RESET, "Z"),
         (burst(*words(0, 0, 1), *words(1, 0, 1)),
          "B 24 0", "B 0 3", "B 24 0", "B 0 4")),
]

ALLCALLS_EDGES = OTHER_CALLS + BURSTS

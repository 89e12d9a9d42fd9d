"""Pairs of listings that the check has to send back, each with words of the
fault; right ones, which it must not; and pairs that break one premise."""

from edges.edge_maker import TICK, ask, burst, credit, edge, plan
from edges.pairs import (
    FIRST_FRAME, ONE, OTHER, PAIRS, SHARES, WITNESS, Pair, ticks)
from pairs.check import judge
from pairs.right_pairs import RIGHT, ill, in_second

MOVED = "is granted in frames %d and %d"
ONE_ONLY = "is granted in one run, refused in the other"
APART = "not aligned"

# Two frames of flow 0 alone: slot 8 is granted in frame 1.
SECOND_FRAME = [*FIRST_FRAME, (ask(0), "G 0"), (ask(0), "R 11"),
                *ticks("-", "-", "-", 0)]


WRONG = [
    (in_second("a grant in a frame before", (ask(0), "G 5")), MOVED % (2, 1)),
    (Pair("a grant in a frame after", plan(4, 3, (1, 8)),
          [(ask(0), "G 1"), (ask(0), "G 4"), (ask(0), "G 8"),
           (ask(0), "R 11"), *ticks(0, "-", "-", 0), (ask(0), "G 0")],
          [(ask(0), "G 1"), (ask(0), "G 4"), (ask(0), "R 11"),
           *[(ask(0), "R 11")], *ticks(0, "-", "-", 0), (ask(0), "G 8")]),
     MOVED % (3, 2)),
    (in_second("refused in the second run", (ask(0), "R 11")), ONE_ONLY),
    (Pair("refused in the first run", SHARES,
          [*FIRST_FRAME, (ask(0), "R 12")], [*FIRST_FRAME, (ask(0), "G 0")]),
     ONE_ONLY),
    (Pair("a grant moves after two frame changes", SHARES,
          [*SECOND_FRAME, (ask(0), "G 4")], [*SECOND_FRAME, (ask(0), "G 1")]),
     MOVED % (3, 2)),
    (Pair("a second share in one run", SHARES,
          [*SECOND_FRAME, (ask(0), "G 4"), (ask(0), "R 11")],
          [*SECOND_FRAME, (ask(0), "G 4"), (ask(0), "G 5")]), ONE_ONLY),
    # The neighbours of the witness, and slot 5 for slot 9.
    (Pair("a grant of the witness moves", SHARES, ONE,
          [*OTHER[:18], (ask(0), "G 5"), *OTHER[19:]]), MOVED % (2, 1)),
    (Pair("a burst's grant moves", SHARES,
          [*FIRST_FRAME, (burst(ask(0), ask(0)), "B 0 0", "B 11 0")],
          [*FIRST_FRAME, (burst(ask(0), ask(0)), "B 0 7", "B 11 0")]),
     MOVED % (2, 1)),
    (Pair("a burst against single requests", SHARES,
          [*FIRST_FRAME, (burst(ask(0), ask(0)), "B 11 0", "B 11 0")],
          [*FIRST_FRAME, (ask(0), "G 0"), (ask(0), "R 11")]), ONE_ONLY),
    (ill("an ill-formed word for two reasons", "R 10", "R 9"),
     "refused with 10 and 9"),
    (ill("an ill-formed word granted", "R 10", "G 0"), ONE_ONLY),

    (in_second("a request less"), APART),
    (in_second("a request more", (ask(0), "G 0"), (ask(0), "R 11")), APART),
    (in_second("another departure", (ask(0, departure=5), "G 0")), APART),
    (in_second("another destination", (ask(0, to=8), "R 9")), APART),
    (in_second("a request of another flow", (ask(1), "G 5")), APART),
    (in_second("a credit more", (credit(0, 5), "C"), (ask(0), "G 0")), APART),
    (in_second("a tick more", (ask(0), "G 0"), (TICK, "T -")), APART),
    (in_second("a tick before the request", (TICK, "T -"), (ask(0), "G 0")),
     APART),
    (Pair("another position of a credit", SHARES,
          [*FIRST_FRAME, (credit(0, 5), "C")],
          [*FIRST_FRAME, (credit(0, 6), "C")]), APART),
    (Pair("a credit before the request", SHARES,
          [*FIRST_FRAME, (credit(0, 5), "C"), (ask(0), "G 0")],
          [*FIRST_FRAME, (ask(0), "G 0"), (credit(0, 5), "C")]), APART),
    (Pair("the neighbours' own flow", SHARES, ONE, OTHER, flow=1), APART),
    (in_second("an answer of another call", (ask(0), "C")), "answered 'C'"),
]

def sent_back(pair, words):
    """What went wrong with a pair that has to be sent back, or None."""
    faults = judge(pair.flow, *pair.runs()).faults
    found = any(words in fault for fault in faults)
    return None if found else "not sent back: %r" % faults


def passed(pair, changes, broken, ways):
    """The same for a right one."""
    verdict = judge(pair.flow, *pair.runs())
    found = verdict.changes, verdict.broken, dict(+verdict.ways)
    if verdict.faults or found != (changes, broken, ways):
        return "sent back: %r, %r" % (verdict.faults, found)
    return None


def premise_needed(pair):
    """Not judged, and sent back without the premise that it breaks."""
    verdict = judge(0, *pair.runs())
    if verdict.faults or verdict.broken != pair.broken:
        return "%r, %r" % (verdict.faults, verdict.broken)
    faults = judge(0, *pair.runs(), left_out=[pair.broken]).faults
    return (None if any(pair.says in fault for fault in faults)
            else "not sent back without it: %r" % faults)


def cut_off():
    """Listings that are too short, or of another plan."""
    first, second = WITNESS.runs()
    other = edge("another plan", plan(4, 2, (1, 9), (3, 8)), *OTHER)
    yield "a line is missing", judge(0, first, (second[0], second[1][:-1]))
    yield "a plan refused", judge(0, first, (second[0], ["P 3"]))
    yield "nothing written", judge(0, first, (second[0], []))
    yield "two plans", judge(0, first, (other.data, other.lines))


def missed():
    """(name, what went wrong or None) for each pair."""
    for pair, words in WRONG:
        yield pair.name, sent_back(pair, words)
    for name, verdict in cut_off():
        yield name, None if verdict.faults else "not sent back"
    for right in RIGHT:
        yield right[0].name, passed(*right)
    for pair in PAIRS:
        if pair.broken:
            yield "the premise is needed: " + pair.name, premise_needed(pair)

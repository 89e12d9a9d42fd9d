"""Pairs of listings that the check has to send back, each with words of the
fault; right ones, which it must not; and pairs that break one premise."""

from ahead.check import (
    AFRESH, AFTER_RESET, BOTH_REFUSED, LENT, NOT_AFRESH, OTHER_NUMBER,
    SAME_WORD, SENT, TAKEN, TO_COME, judge)
from edges import ahead as edges
from edges.ahead import (
    BASE, FOUR, ONE_AND_EIGHT, THREE, WITNESS, sent, with_pair)
from edges.edge_maker import RESET, TICK, ask, credit, edge, lend, plan
from edges.pairs import ticks
from generator import ahead_seeds
from simulator.listing import simulate
from simulator.records import ALLCALLS

AFTER = [(ask(1), "G 5"), *ticks(0), (credit(0, 5), "C")]
FULL = plan(4, 2, (2, 1), (2, 2))
AT_ONCE = "in the slot in which it comes"
HASTY = 40                      # seeds


def moved(name, after, *others):
    """The witness up to slot 4, with other answers in the second run."""
    return with_pair(name, BASE, THREE, sent(4), [*AFTER, *after],
                     *AFTER, *others)


# Listings that no right program writes, and the sendings that are bad ones.
WRONG = [
    (moved("a grant moves", [(ask(0), "G 6")], (ask(0), "G 7")),
     "is answered with G 6 and G 7"),
    (moved("granted in the first run alone", [(ask(0), "G 6")],
           (ask(0), "R 12")), "is answered with G 6 and R 12"),
    (moved("granted in the second run alone", [(ask(0), "R 12")],
           (ask(0), "G 6")), "is answered with R 12 and G 6"),
    (moved("a neighbour's grant moves", [(ask(1), "G 6")], (ask(1), "G 7")),
     "is answered with G 6 and G 7"),
    # Slot 4, which was sent ahead, has come up.
    (moved("another number when the slot has come up", [(ask(0), "R 11")],
           (ask(0), "R 12")), "is refused with 11 and 12"),
    (moved("another number of a flow that sends nothing", [(ask(1), "R 11")],
           (ask(1), "R 12")), "is refused with 11 and 12"),
    (moved("a credit taken in the first run alone", [(credit(0, 6), "C")],
           (credit(0, 6), "R 15")), "is taken in the first run alone"),
    (moved("a tick that differs", ticks(1), *ticks("-")),
     "comes up for 1 and -"),
    (moved("a slot comes up for another", ticks(1), *ticks(0)),
     "comes up for 1 and 0"),
    (moved("a call less", [(ask(0), "G 6")], *[]), "not aligned"),
    (moved("a call more", [], (ask(0), "G 6")), "not aligned"),
    (moved("another credit", [(credit(0, 6), "C")], (credit(0, 7), "C")),
     "not aligned"),
    (moved("a reset in the first run alone", [(RESET, "Z")],
           (RESET, "R 23")), "a reset is answered with Z and R 23"),
    (moved("a reset in the second run alone", [(RESET, "R 23")],
           (RESET, "Z")), "a reset is answered with R 23 and Z"),
    (moved("a reset less", [(RESET, "R 23")], *[]), "not aligned"),
    (moved("an answer of another call", ticks(1), (TICK, "C")),
     "answered 'C'"),
    # A second pair in slot 3, as a link without its mark would answer.
    (with_pair("two in one slot", BASE, FOUR, [*sent(4), *sent(5)], []),
     "two tiles leave in slot 3"),
    # Rule 24.7: one cell, held from slot 2 on; sent ahead all the same, it is
    # in slot 1; the tile of slot 3 is the second before any cell came back.
    (with_pair("over its cells", FULL,
               [(ask(0), "G 2"), (ask(0), "G 3"), *ticks("-")], sent(2),
               ticks(0, 0)), "flow 0 is over its cells in slot 3"),
    (edges.CREDITED_ONLY, "not aligned"),
    (edges.OF_NOTHING, "slot 6, which is not its own"),
    (edges.ANOTHERS, "slot 6, which is not its own"),
    (edges.OUT_OF_ORDER, "the tile of slot 5 out of order"),
    (edges.NOT_COME, "the tile of slot 3 before it comes"),
    (edges.AS_IT_COMES, "the tile of slot 2 " + AT_ONCE),
    (edges.AHEAD_AS_IT_COMES, "the tile of slot 2 " + AT_ONCE),
    (edges.TWICE, "the tile of slot 6 twice"),
    (edges.DUE_LATER, "the tile of slot 5 before it comes"),
    (edges.BEFORE_A_RESET, "slot 3, which is not its own"),
]

# With what is counted.
RIGHT = [
    (WITNESS, {SENT: 1, SAME_WORD: 5, TAKEN: 3}),
    (edges.NUMBERS, {SENT: 1, SAME_WORD: 4, TO_COME: 2, TAKEN: 2,
                     BOTH_REFUSED: 1, OTHER_NUMBER: 1}),
    (edges.BOTH_FLOWS, {SENT: 2, SAME_WORD: 4}),
    (edges.WITH_RESET, {SENT: 2, SAME_WORD: 4, TAKEN: 3, AFRESH: 1,
                        NOT_AFRESH: 1, AFTER_RESET: 1}),
    (with_pair("a refused lend in one run", BASE, THREE, [(lend(0), "R 18")],
               []), {SAME_WORD: 3, TAKEN: 2}),
    (with_pair("the same run twice", ONE_AND_EIGHT, [(ask(0), "G 1")], [],
               ticks(0)), {SAME_WORD: 1}),
]


def sent_back(pair, words):
    """What went wrong with a pair that has to be sent back, or None."""
    faults = [fault for in_order in (True, False)
              for fault in judge(*pair.runs(), in_order=in_order).faults]
    found = any(words in fault for fault in faults)
    return None if found else "not sent back: %r" % faults


def passed(pair, ways):
    """The same for a right one."""
    verdict = judge(*pair.runs())
    if verdict.faults or verdict.broken or dict(+verdict.ways) != ways:
        return "sent back: %r, %r, %r" % (
            verdict.faults, verdict.broken, dict(+verdict.ways))
    return None


def premise_needed(pair):
    """Not judged, and sent back without the premise that it breaks."""
    verdict = judge(*pair.runs())
    if verdict.faults or verdict.broken != pair.broken:
        return "%r, %r" % (verdict.faults, verdict.broken)
    faults = judge(*pair.runs(), left_out=[pair.broken]).faults
    return (None if any(pair.says in fault for fault in faults)
            else "not sent back without it: %r" % faults)


def lent_alone(pair):
    """A lend that is no pair is not judged, and counted."""
    verdict = judge(*pair.runs())
    return (None if verdict.broken == LENT and not verdict.faults
            else "%r, %r" % (verdict.faults, verdict.broken))


def in_any_order():
    """Where no order is asked for, the second tile may be sent first."""
    faults = judge(*edges.OUT_OF_ORDER.runs(), in_order=False).faults
    return "%r" % faults if faults else None


def cut_off():
    first, second = WITNESS.runs()
    other = edge("another plan", plan(4, 2, (2, 3), (2, 2)), *THREE)
    yield "a line is missing", judge(first, (second[0], second[1][:-1]))
    yield "a plan refused", judge(first, (second[0], ["P 3"]))
    yield "nothing written", judge(first, (second[0], []))
    yield "two plans", judge(first, (other.data, other.lines))


def hasty_boards():
    """Generated runs whose boards send a tile in the very slot in which it
    comes, where they can: each is sent back for that and nothing else, on the
    most of the links."""
    links = told = 0
    for seed in range(HASTY):
        for files in ahead_seeds.hasty(seed):
            faults = judge(*((data, list(simulate(data, ALLCALLS)))
                             for data in files)).faults
            links += 1
            told += bool(faults)
            if faults and AT_ONCE not in faults[0]:
                return "seed %d: %s" % (seed, faults[0])
    return None if 2 * told > links else "%d of %d told" % (told, links)


def missed():
    """(name, what went wrong or None) for each."""
    for pair, words in WRONG:
        yield pair.name, sent_back(pair, words)
    for name, verdict in cut_off():
        yield "ahead, " + name, None if verdict.faults else "not sent back"
    for pair, ways in RIGHT:
        yield pair.name, passed(pair, ways)
    for pair in edges.PREMISES:
        yield "the premise is needed: " + pair.name, premise_needed(pair)
    for pair in edges.LENT_ONLY, edges.OTHER_CREDITED:
        yield "not judged: " + pair.name, lent_alone(pair)
    yield "ahead, in any order", in_any_order()
    yield "ahead, generated boards that are too hasty", hasty_boards()

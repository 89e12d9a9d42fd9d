"""Listings that the check of demand 3 has to send back, and some it must not.

Each is a call file with a listing that no right link gives, and words of the
fault that the check has to name.  Some are of links that can't be
meant, as one that refuses everything; the others break one clause each of
rules 21.5 to 21.8.
"""

from demand3 import (
    wrong_answers, wrong_bursts, wrong_credits, wrong_delays,
    wrong_departures, wrong_lends, wrong_numbers, wrong_resets, wrong_turns)
from demand3.check import ALLCALLS, check
from edges.edge_maker import TICK, ask, credit, edge, plan

ONE = plan(2, 2, (1, 3))            # F = 2, W = 2, share 1, 3 cells
WIDE = plan(4, 2, (2, 2), (2, 2))   # F = 4, W = 2
LEAST = "below the least"

WRONG = [
    # Rule 21.8: the least is (W - 1) x share = 1 in frame 0.
    (edge("refuses every request", ONE,
          (ask(0), "R 12"), (ask(0), "R 12")), LEAST),
    (edge("reports 11 before booking anything", ONE,
          (ask(0), "R 11")), LEAST),
    # Right in frame 0; in frame 1 the least is 2 grants, in frame 2 it is 3.
    (edge("later only refuses", ONE,
          (ask(0), "G 1"), (ask(0), "G 2"), (ask(0), "R 11"),
          (TICK, "T 0"), (TICK, "T 0"), (credit(0, 3), "C"), (ask(0), "R 11"),
          (TICK, "T -"), (TICK, "T -"), (ask(0), "R 11")), LEAST),
    # Rule 21.6.
    (edge("grants one position every time", WIDE,
          (ask(0), "G 1"), (ask(1), "G 1")), "slot 1 granted to 0 and to 1"),
    (edge("writes no booking down", WIDE,
          (ask(0), "G 1"), (TICK, "T -")), "slot 1 comes up for -"),
    (edge("brings a slot up for another flow", WIDE,
          (ask(0), "G 1"), (TICK, "T 1")), "slot 1 comes up for 1"),
    (edge("brings up a slot that nobody has", WIDE,
          (TICK, "T 0")), "slot 1 comes up for 0"),
    (edge("brings a booking up twice", ONE,
          (ask(0), "G 1"), (TICK, "T 0"), (TICK, "T -"), (TICK, "T -"),
          (TICK, "T -"), (TICK, "T 0")), "slot 5 comes up for 0"),
    # Rule 21.7.
    (edge("grants more than the share in a frame", ONE,
          (ask(0), "G 2"), (ask(0), "G 3")), "more than its share in frame 1"),
    # (W + k) x share = 2 with k = 0; position 0 is slot 4, in frame 2.
    (edge("grants more than the most", ONE,
          (ask(0), "G 1"), (ask(0), "G 2"), (ask(0), "G 0")),
     "above the most"),
    (edge("grants the current position", ONE,
          (ask(0), "G 0")), "slot 4 is not below t + T"),
    (edge("grants a position past T", ONE,
          (ask(0), "G 4")), "position 4 is not below T"),
    (edge("grants to a flow that the plan has not", ONE,
          (ask(5), "G 1")), "flow 5, which the plan has not"),
    # Rule 21.5: three bookings with two cells, across a frame change.
    (edge("goes above the cells", WIDE,
          (ask(0), "G 1"), (ask(0), "G 2"),
          *[(TICK, line) for line in ("T 0", "T 0", "T -", "T -")],
          (ask(0), "G 0")), "flow 0 holds 3 at slot 8"),
    # Slip 1 (edges/three_slips.py): 1 held at slot 2, but 0 from slot 5 on.
    (edge("goes below 0", WIDE,
          (ask(0), "G 1"), (credit(0, 5), "C"), (credit(0, 2), "C")),
     "flow 0 holds -1 at slot 5"),
    (edge("takes a credit of a flow that the plan has not", WIDE,
          (credit(2, 1), "C")), "a taken credit of flow 2"),
    (edge("answers a tick like a credit", WIDE, (TICK, "C")), "answered 'C'"),
    (edge("answers no call", WIDE, (b"\x04" + bytes(4), "T -")), "no call"),
]

# A right listing of nine frame changes: no fault, and the least count is
# tried.
RIGHT = edge(
    "a right listing", plan(1, 2, (1, 255)),
    (ask(0), "G 1"), (ask(0), "R 11"),
    *[step for k in range(1, 10) for step in (
        (TICK, "T 0"), (ask(0), "G %d" % ((k + 1) % 2)), (ask(0), "R 11"))])


def sent_back(wrong, words, *kinds):
    """What went wrong with a listing that has to be sent back, or None."""
    faults = check(wrong.data, wrong.lines, *kinds).faults
    found = any(words in fault for fault in faults)
    return None if found else "not sent back: %r" % faults


def passed(right, least, *kinds):
    """The same for a right one, with the least count tried as far as this."""
    verdict = check(right.data, right.lines, *kinds)
    if verdict.faults or verdict.least != least:
        return "sent back: %r, %r" % (verdict.faults, verdict.least)
    return None


def tried(right, delays):
    """The same for a right one, with prompt and soon tried so often."""
    verdict = check(right.data, right.lines, ALLCALLS)
    if verdict.faults or verdict.delays != delays:
        return "sent back: %r, %r" % (verdict.faults, verdict.delays)
    return None


def ended(right, given_back):
    """The same for a right one, with credits that ended so."""
    verdict = check(right.data, right.lines, ALLCALLS)
    if verdict.faults or verdict.given_back != given_back:
        return "sent back: %r, %r" % (verdict.faults, verdict.given_back)
    return None


def credits():
    """The same for listings that only the rule on credits tells apart."""
    for wrong, words in wrong_credits.WRONG + wrong_credits.ALLCALLS_WRONG:
        faults = check(wrong.data, wrong.lines, ALLCALLS).faults
        others = [fault for fault in faults if not fault.endswith("is held")]
        yield wrong.name, (sent_back(wrong, words, ALLCALLS)
                           or others and "demand 3: %s" % others)
    for right, ways in wrong_credits.RIGHT + wrong_credits.ALLCALLS_RIGHT:
        yield right.name, ended(right, ways)


def answers():
    """The same for listings that only the rule on lends and resets tells
    apart."""
    for wrong, words in wrong_answers.WRONG:
        faults = check(wrong.data, wrong.lines, ALLCALLS).faults
        others = [fault for fault in faults
                  if not fault.endswith(("take the slot", "at rest"))]
        yield wrong.name, (sent_back(wrong, words, ALLCALLS)
                           or others and "demand 3: %s" % others)
    for right in wrong_answers.RIGHT:
        yield right.name, passed(right, {}, ALLCALLS)


def delays():
    """The same for listings that only prompt and soon tell apart."""
    for wrong, words in wrong_delays.WRONG + wrong_delays.ALLCALLS_WRONG:
        faults = check(wrong.data, wrong.lines, ALLCALLS).faults
        others = [fault for fault in faults
                  if not fault.endswith(("is prompt", "is modest"))]
        yield wrong.name, (sent_back(wrong, words, ALLCALLS)
                           or others and "demand 3: %s" % others)
    for right, delays in wrong_delays.RIGHT + wrong_delays.ALLCALLS_RIGHT:
        yield right.name, tried(right, delays)


def missed():
    """(name, what went wrong or None) for each listing."""
    yield from delays()
    yield from credits()
    yield from answers()
    for wrong, words in WRONG:
        yield wrong.name, sent_back(wrong, words)
    cut = check(RIGHT.data, RIGHT.lines[:-1]).faults
    yield "a line is missing", None if cut else "not sent back"
    yield RIGHT.name, passed(RIGHT, {0: 9})
    for wrong, words in wrong_departures.WRONG + wrong_numbers.WRONG:
        yield wrong.name, sent_back(wrong, words)
    for right, least in wrong_departures.RIGHT + wrong_numbers.RIGHT:
        yield right.name, passed(right, least)
    for wrong, words in (
            wrong_lends.WRONG + wrong_turns.WRONG + wrong_resets.WRONG
            + wrong_bursts.WRONG + wrong_numbers.ALLCALLS_WRONG):
        yield wrong.name, sent_back(wrong, words, ALLCALLS)
    for right, least in (
            wrong_lends.RIGHT + wrong_turns.RIGHT + wrong_resets.RIGHT
            + wrong_bursts.RIGHT + wrong_numbers.ALLCALLS_RIGHT):
        yield right.name, passed(right, least, ALLCALLS)

"""The tests of one program: played, counted, and a line for each failure.

A file is played in one of several processes, and what came of it is counted
in the first.
"""

import multiprocessing
from collections import Counter

from demand3 import (
    credit_ways, delays, departure_ways, lend_ways, number_ways, reset_ways,
    turns)
from demand3.check import check
from driver import progress
from driver.formats import ALLCALLS, DOMELINK
from driver.starting import NO_END, play, play_in_pieces

PATIENCE = 3                    # files without end, then the rest is left out


def shown(text):
    if text is None:
        return "no line"
    return repr(text.decode("latin-1")[:60]) if text else "the end"


def first_difference(expected, got):
    """Text on the first line that differs, or None.  Both are bytes."""
    if expected == got:
        return None
    wanted, found = expected.split(b"\n"), got.split(b"\n")
    for place in range(max(len(wanted), len(found))):
        want = wanted[place] if place < len(wanted) else None
        have = found[place] if place < len(found) else None
        if want != have:
            break
    return "line %d: expected %s, got %s" % (
        place + 1, shown(want), shown(have))


def refusals_in(lines):
    return {int(line[2:]) for line in lines
            if line[:1] in ("P", "R") and line[2:].isdecimal()}


class Outcome:
    """What came of a file."""

    def __init__(self, troubles, seen, verdict=None):
        self.troubles = troubles
        self.seen = seen            # refusal numbers
        self.verdict = verdict      # on demand 3, where calls were played


class Suite:
    def __init__(self, name, command=None, form=DOMELINK):
        self.name = name
        self.command = command      # the program's path and its arguments
        self.form = form            # how it reads records
        self.passed = 0
        self.failed = 0
        self.seen = set()           # refusal numbers in the listings
        self.given_back = Counter()     # how credits ended
        self.lends = Counter()      # how lends ended
        self.turns = Counter()      # which flow's turn it was
        self.resets = Counter()     # how resets ended
        self.departures = Counter()     # where they lay, how requests ended
        self.numbers = Counter()    # which they were, how requests ended
        self.delays = Counter()     # how requests were prompt, and soon
        self.largest_k = -1         # at which the least count was tried
        self.afresh = -1            # the same after a granted reset
        self.without_end = multiprocessing.Value("i", 0)    # for all processes

    def test(self, name, *troubles):
        """One test: it passes if no trouble is named."""
        troubles = [trouble for trouble in troubles if trouble]
        if troubles:
            self.failed += 1
            progress.line.clear()
            print("FAILED %s, %s: %s" % (self.name, name, "; ".join(troubles)))
        else:
            self.passed += 1

    def note(self, outcome):
        """What came up in a file, for the totals."""
        self.seen |= outcome.seen
        if outcome.verdict:
            self.given_back += outcome.verdict.given_back
            self.lends += outcome.verdict.lends
            self.turns += outcome.verdict.turns
            self.resets += outcome.verdict.resets
            self.departures += outcome.verdict.departures
            self.numbers += outcome.verdict.numbers
            self.delays += outcome.verdict.delays
            self.largest_k = max(self.largest_k, outcome.verdict.largest_k())
            self.afresh = max(self.afresh, outcome.verdict.afresh)

    def add(self, name, outcome):
        """The test of a file that was played, if it was."""
        if outcome:
            self.note(outcome)
            self.test(name, *outcome.troubles)

    def start(self, case):
        if case.size is None:
            return play(self.command, case.data)
        return play_in_pieces(self.command, case.data, case.size)

    def play(self, case):
        """What comes of a file, or None where no more are played."""
        if self.without_end.value >= PATIENCE:
            return None
        outcome = self.outcome(case)
        if NO_END in outcome.troubles:
            with self.without_end:
                self.without_end.value += 1
        return outcome

    def outcome(self, case):
        """One file through the program: listing, end and demand 3."""
        played = self.start(case)
        right = case.right(self.form)
        lines, verdict = right.lines, right.verdict
        if played.output != right.listing:
            lines = played.output.decode("latin-1").splitlines()
            verdict = check(case.data, lines, self.form.checked)
        return Outcome(
            [case.trouble, first_difference(right.listing, played.output),
             verdict.faults and "by the listing, " + verdict.faults[0],
             played.trouble], refusals_in(lines), verdict)

    def gave_up(self):
        """Whether files were left out, which is said."""
        without_end = self.without_end.value
        if without_end >= PATIENCE:
            print("%s: gave up after %d files without end"
                  % (self.name, without_end))
        return without_end >= PATIENCE

    def totals(self):
        """What has to have come up in all files together."""
        if self.gave_up():
            return
        missing = sorted(set(self.form.refusals) - self.seen)
        self.test("each refusal was seen",
                  missing and "never seen: %s" % missing)
        self.test("the least count was tried with k of 2 and more",
                  self.largest_k < 2 and "largest k %d" % self.largest_k)
        self.every_end("departure", departure_ways.WAYS, self.departures)
        self.every_end("number", [
            way for way in number_ways.WAYS
            if self.form is ALLCALLS or way not in number_ways.AFTER_RESETS
        ], self.numbers)
        self.every_way("prompt and soon requests", delays.WAYS, self.delays)
        self.every_way("credits", credit_ways.WAYS, self.given_back)
        if self.form is ALLCALLS:
            self.every_way("lends", lend_ways.WAYS, self.lends)
            self.every_way("turns", turns.WAYS, self.turns)
            self.every_way("resets", reset_ways.WAYS, self.resets)
            self.test("the least count was tried after a reset with k of 2 "
                      "and more",
                      self.afresh < 2 and "largest k %d" % self.afresh)

    def every_end(self, field, ways, seen):
        missing = [": ".join(way) for way in ways if not seen[way]]
        self.test("requests ended in every way for every " + field,
                  missing and "never seen: %s" % ", ".join(missing))

    def every_way(self, calls, ways, seen):
        missing = [way for way in ways if not seen[way]]
        self.test(calls + " ended in every way",
                  missing and "never seen: %s" % ", ".join(missing))

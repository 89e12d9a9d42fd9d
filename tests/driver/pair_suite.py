"""The search for two runs in which the neighbours move a flow's frames: pairs
of aligned runs, played through a program, and judged by its listings alone."""

from functools import partial

from driver.pair_tally import PairTally
from driver.starting import play
from driver.suite import Outcome, Suite
from generator import pair_seeds
from pairs.check import judge


class PairCase:
    """The pairs of a seed."""

    def __init__(self, seed):
        self.pairs = pair_seeds.generate(seed)
        self.known = {}             # verdicts, by the listings

    def verdict(self, place, listings):
        """On a pair, whichever program wrote its listings."""
        if (place, *listings) not in self.known:
            flow, files = self.pairs[place]
            runs = [(data, listing.decode("latin-1").splitlines())
                    for data, listing in zip(files, listings)]
            self.known[place, *listings] = judge(flow, *runs)
        return self.known[place, *listings]


def seeds(count, seed):
    for number in range(seed, seed + count):
        yield ("pairs, seed %d (%s)" % (number, pair_seeds.kind_of(number)),
               partial(PairCase, number))


class PairSuite(Suite):
    """The pairs of a program that reads allcalls' records."""

    def __init__(self, suite):
        super().__init__("pairs by " + suite.name, suite.command, suite.form)
        self.tally = PairTally()

    def outcome(self, case):
        outcome = Outcome([], set())
        outcome.tally = PairTally()
        for place, (flow, files) in enumerate(case.pairs):
            played = [play(self.command, data) for data in files]
            verdict = case.verdict(place, [run.output for run in played])
            outcome.tally.add(verdict)
            troubles = [run.trouble for run in played if run.trouble]
            troubles += ["pair %d, flow %d, %s" % (place, flow, fault)
                         for fault in verdict.faults[:1]]
            if troubles:
                outcome.troubles = troubles
                break
        return outcome

    def note(self, outcome):
        self.tally.join(outcome.tally)

    def totals(self):
        if not self.gave_up():
            self.test("pairs meet the premise, and differ in every way",
                      self.tally.trouble())

"""The search for two runs in which sending ahead moves a booking: the links of
a stream, each played without and with, and judged by the listings alone."""

from collections import Counter
from functools import partial

from ahead.check import OTHER_NUMBER, WAYS, judge
from driver.starting import play
from driver.suite import Outcome, Suite, first_difference
from generator import ahead_seeds
from simulator.listing import simulate
from simulator.records import ALLCALLS

# Too seldom to be asked for; it is an edge.
RARE = OTHER_NUMBER,


class AheadTally:
    def __init__(self):
        self.files = 0              # pairs of runs
        self.sending = 0            # those in which some tile was sent ahead
        self.several = 0            # the same of more than one flow
        self.broken = Counter()     # premises
        self.ways = Counter()
        self.gained = 0             # slots

    def add(self, verdict):
        self.files += 1
        self.sending += bool(verdict.gains)
        self.several += len(verdict.flows) > 1
        self.gained += sum(verdict.gains)
        if verdict.broken:
            self.broken[verdict.broken] += 1
        self.ways += verdict.ways

    def join(self, other):
        for name, value in vars(other).items():
            setattr(self, name, getattr(self, name) + value)

    def trouble(self):
        """What came up too seldom, once each kind was there."""
        if self.files < 10 * len(ahead_seeds.ORDER):
            return None
        if 2 * self.sending < self.files:
            return "tiles are sent ahead in %d of %d" % (self.sending,
                                                         self.files)
        if 10 * sum(self.broken.values()) > self.files:
            return "a premise is broken by %s of %d" % (
                dict(self.broken), self.files)
        never = [way for way in WAYS
                 if way not in RARE and not self.ways[way]]
        if not self.several:
            never.append("two flows that send ahead")
        return never and "never seen: %s" % "; ".join(never)

    def text(self):
        return "\n".join([
            "%d runs without and with sending ahead; tiles are sent ahead in "
            "%d, of several flows in %d; %d slots gained" % (
                self.files, self.sending, self.several, self.gained),
            "  broken first: " + (", ".join(
                "%s %d" % pair for pair in sorted(self.broken.items()))
                or "nothing"),
            "  " + ", ".join("%s %d" % (way, self.ways[way])
                             for way in WAYS)])


class AheadCase:
    """The links of a seed."""

    def __init__(self, seed):
        kind = ahead_seeds.KINDS[ahead_seeds.kind_of(seed)]
        self.in_order = not kind.careless
        self.pairs = ahead_seeds.generate(seed)
        self.right = [[("\n".join(simulate(data, ALLCALLS)) + "\n").encode()
                       for data in files] for files in self.pairs]
        self.known = {}             # verdicts, by the listings

    def verdict(self, place, listings):
        """On a link, whichever program wrote its listings."""
        if (place, *listings) not in self.known:
            runs = [(data, listing.decode("latin-1").splitlines())
                    for data, listing in zip(self.pairs[place], listings)]
            self.known[place, *listings] = judge(*runs,
                                                 in_order=self.in_order)
        return self.known[place, *listings]


def seeds(count, seed):
    for number in range(seed, seed + count):
        yield ("sent ahead, seed %d (%s)" % (
            number, ahead_seeds.kind_of(number)), partial(AheadCase, number))


class AheadSuite(Suite):
    """The runs of a program that reads allcalls' records."""

    def __init__(self, suite):
        super().__init__("sent ahead by " + suite.name, suite.command,
                         suite.form)
        self.tally = AheadTally()

    def of_link(self, case, place, tally):
        """What went wrong on a link, as texts."""
        played = [play(self.command, data) for data in case.pairs[place]]
        verdict = case.verdict(place, [run.output for run in played])
        tally.add(verdict)
        troubles = [run.trouble for run in played if run.trouble]
        troubles += filter(None, map(
            first_difference, case.right[place],
            [run.output for run in played]))
        return ["link %d: %s" % (place, text)
                for text in troubles + verdict.faults[:1]]

    def outcome(self, case):
        outcome = Outcome([], set())
        outcome.tally = AheadTally()
        for place in range(len(case.pairs)):
            outcome.troubles += self.of_link(case, place, outcome.tally)
        return outcome

    def note(self, outcome):
        self.tally.join(outcome.tally)

    def totals(self):
        if not self.gave_up():
            self.test("tiles are sent ahead, and all ends come up",
                      self.tally.trouble())

"""The search for a tile that comes late: a stream's way over one to five links
that are played through a program, and judged by their listings alone."""

from functools import partial

from demand3.check import check
from driver.formats import ALLCALLS
from driver.starting import play
from driver.suite import Outcome, Suite, first_difference
from driver.way_tally import WayTally
from generator import way_seeds
from simulator.listing import simulate
from ways.by_hand import BROKEN, IN_TIME, STREAM
from ways.check import judge


class WayCase:
    """A way, with the right listing of each link."""

    def __init__(self, links, listings, words=None, trouble=None):
        self.flows = [flow for flow, _ in links]
        self.files = [data for _, data in links]
        self.listings = listings
        self.words = words              # of the fault that has to be told
        self.trouble = trouble          # what is wrong before it is played
        self.may_break = False          # too few cells
        self.came, self.burst = (), 0   # of tiles that come in bursts
        self.known = {}                 # verdicts, by the listings

    def verdict(self, listings):
        """On the way, whichever program wrote its listings."""
        key = tuple(map(tuple, listings))
        if key not in self.known:
            self.known[key] = judge(self.flows, zip(self.files, listings),
                                    self.came, self.burst)
        return self.known[key]

    def faults(self, verdict):
        """What the stream should not have met."""
        if self.words:
            told = any(self.words in fault for fault in verdict.faults)
            return [] if told else ["not so: " + self.words]
        return [] if self.may_break else verdict.faults[:1]


def from_seed(seed):
    way = way_seeds.generate(seed)
    links = way.links
    listings = [simulate(data, ALLCALLS.kinds) for _, data in links]
    faults = [fault for (_, data), lines in zip(links, listings)
              for fault in check(data, lines, ALLCALLS.checked).faults]
    case = WayCase(links, listings, None,
                   faults and "by a listing, " + faults[0])
    case.may_break = way_seeds.too_few(seed)
    case.came, case.burst = way.source.came, way.source.burst
    return case


def from_hand(way):
    """The simulator has to give the hand-made listings too."""
    differ = [link.name for link in way.links
              if simulate(link.data, ALLCALLS.kinds) != link.lines]
    return WayCase([(STREAM, link.data) for link in way.links],
                   [link.lines for link in way.links], way.words,
                   differ and "the simulator differs: %s" % differ)


def cases(count, seed):
    for way in IN_TIME + BROKEN:
        yield "way: " + way.name, partial(from_hand, way)
    for number in range(seed, seed + count):
        yield ("ways, seed %d (%s, links: %d)"
               % (number, way_seeds.kind_of(number),
                  way_seeds.links_of(number)),
               partial(from_seed, number))


class WaySuite(Suite):
    """The ways of a program that reads allcalls' records."""

    def __init__(self, suite):
        super().__init__("ways by " + suite.name, suite.command, suite.form)
        self.tally = WayTally()

    def outcome(self, case):
        troubles, listings = [case.trouble], []
        for data, lines in zip(case.files, case.listings):
            played = play(self.command, data)
            right = "".join(line + "\n" for line in lines).encode()
            troubles += [played.trouble,
                         first_difference(right, played.output)]
            listings.append(played.output.decode("latin-1").splitlines())
        verdict = case.verdict(listings)
        outcome = Outcome(troubles + case.faults(verdict), set())
        outcome.tally = WayTally()
        if not case.words:
            outcome.tally.add(verdict, case.may_break)
        return outcome

    def note(self, outcome):
        self.tally.join(outcome.tally)

    def totals(self):
        if not self.gave_up():
            self.test("the bound is attained on ways of every length, and a "
                      "cell too few breaks it", self.tally.trouble())

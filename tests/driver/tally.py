"""What was generated, for the summary."""

from collections import Counter

from demand3 import departure_ways, number_ways, turns
from demand3.delays import PROMPT, SOON
from demand3.lend_ways import BITS, LENT, NO_FLOW, TAKEN
from demand3.reset_ways import GRANTED, REFUSED
from generator.seeds import BURSTS, DEPARTURES, NUMBERS
from simulator.records import ALLCALLS, read_record, split

# What can stand in a burst's record as its result.
BURST_RESULTS = ("0", "8", "9", "10", "11", "12", "20", "24", "255")
OFTEN = 3               # times 20 or 24 has to come up for each of their files


class Tally:
    def __init__(self):
        self.files = 0
        self.calls = 0
        self.met = 0            # files that met the least count's premise
        self.met_later = 0      # the same with k of 2 and more
        self.delays = Counter()     # how requests were prompt, and soon

    def add(self, case):
        self.files += 1
        self.delays += case.own.verdict.delays
        self.calls += len(case.own.lines) - 1
        self.met += case.own.verdict.largest_k() >= 0
        self.met_later += case.own.verdict.largest_k() >= 2

    def text(self):
        prompt, soon = (sum(self.delays[way] for way in ways)
                        for ways in (PROMPT, SOON))
        return ("%d generated files with %d calls; the premise of the least "
                "count is met by %d files, by %d with k of 2 and more; that "
                "of prompt by %d requests, and of soon by %d"
                % (self.files, self.calls, self.met, self.met_later,
                   prompt, soon))


class WordTally(Tally):
    """Also where a field of the well-formed words lay, and how the requests
    ended."""

    sort = None             # of the words' fields, a field of the verdict
    title = None            # what its places are of
    places = {}             # where it can lie, and the ends that are shown
    refusal = None          # that has to come up often
    kinds = ()              # of the files, in the order of their seeds

    def __init__(self):
        super().__init__()
        self.ends = Counter()

    def add(self, case):
        super().add(case)
        self.ends += getattr(case.own.verdict, self.sort)

    def trouble(self):
        """Whether its refusal came up too seldom, once each kind was there."""
        if self.files < len(self.kinds):
            return None
        found = sum(count for (_, end), count in self.ends.items()
                    if end == self.refusal)
        least = OFTEN * self.files
        return found < least and "%d times, and not %d" % (found, least)

    def part(self, place, ends):
        return "  %s: %s" % (place, ", ".join(
            "%s %d" % (end, self.ends[place, end]) for end in ends))

    def text(self):
        return "\n".join([
            super().text(),
            "%d well-formed words in them, by %s"
            % (sum(self.ends.values()), self.title),
            *[self.part(place, ends) for place, ends in self.places.items()]])


class DepartureTally(WordTally):
    sort = "departures"
    title = "the place of the departure"
    places = departure_ways.PLACES
    refusal = "20"
    kinds = DEPARTURES.order


class NumberTally(WordTally):
    sort = "numbers"
    title = "the quantum number"
    places = number_ways.PLACES
    refusal = "24"
    kinds = NUMBERS.order


class WaysTally(Tally):
    """Also how the calls of one sort ended."""

    sort = None             # of the calls, a field of the verdict
    parts = ()              # a title and the ways under it

    def __init__(self):
        super().__init__()
        self.ways = Counter()

    def add(self, case):
        super().add(case)
        self.ways += getattr(case.own.verdict, self.sort)

    def part(self, title, ways):
        return "  %s %d: %s" % (
            title, sum(self.ways[way] for way in ways),
            ", ".join("%s %d" % (way.split(": ")[1], self.ways[way])
                      for way in ways))

    def text(self):
        return "\n".join([
            super().text(),
            "%d %s in them" % (sum(self.ways.values()), self.sort),
            *[self.part(*part) for part in self.parts]])


class LendTally(WaysTally):
    """Also whose turn it was."""

    sort = "lends"
    parts = (("lent", LENT), ("refused with 8", BITS),
             ("refused with 17", TAKEN), ("refused with 18", NO_FLOW))

    def __init__(self):
        super().__init__()
        self.turns = Counter()

    def add(self, case):
        super().add(case)
        self.turns += case.own.verdict.turns

    def text(self):
        return "%s\n  turns: %s" % (super().text(), ", ".join(
            "%s %d" % (way.split(": ")[1], self.turns[way])
            for way in turns.WAYS))


class ResetTally(WaysTally):
    sort = "resets"
    parts = ("granted", GRANTED), ("refused with 23", REFUSED)


class BurstTally(Tally):
    """Also how long the bursts were, what stood in their records, which
    quantum numbers came up, and how many resets were granted between them."""

    def __init__(self):
        super().__init__()
        self.lengths = Counter()
        self.numbers = Counter()
        self.results = Counter()
        self.resets = 0

    def add(self, case):
        super().add(case)
        data = case.data
        rest = data[int.from_bytes(data[:2], "little"):]
        for record in split(rest, ALLCALLS):
            call = read_record(record, ALLCALLS)
            if call and call[0] == "burst":
                self.lengths[len(call[1])] += 1
        self.results.update(line.split()[1] for line in case.own.lines
                            if line[0] == "B")
        self.numbers += case.own.verdict.numbers
        self.resets += case.own.lines.count("Z")

    def trouble(self):
        """What never came up, once each kind of file was there."""
        if self.files < 10 * len(BURSTS.order):
            return None
        missing = [length for length in range(21) if not self.lengths[length]]
        never = [result for result in BURST_RESULTS
                 if not self.results[result]]
        never += [", ".join(way) for way in number_ways.WAYS
                  if not self.numbers[way]]
        return (missing and "no burst of %s" % missing
                or never and "never seen: %s" % "; ".join(never)
                or not self.resets and "no reset granted")

    def text(self):
        return "%s\n%d bursts in them, with %d records: %s; %d resets" % (
            super().text(), sum(self.lengths.values()),
            sum(self.results.values()),
            ", ".join("%s %d" % (result, self.results[result])
                      for result in BURST_RESULTS), self.resets)


class QuestionTally:
    """How the questions were answered."""

    def __init__(self):
        self.files = 0
        self.answers = Counter()

    def add(self, case):
        self.files += 1
        self.answers.update(answer if answer[0] in "R?" else "given"
                            for answer in case.answers)

    def text(self):
        refused = sorted((int(answer[2:]), count) for answer, count
                         in self.answers.items() if answer[0] == "R")
        return ("%d generated files with %d questions, %d of them none\n"
                "  answered %d, refused with %s"
                % (self.files, sum(self.answers.values()), self.answers["?"],
                   self.answers["given"],
                   ", ".join("%d: %d" % pair for pair in refused)))

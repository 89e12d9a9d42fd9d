"""What came up in pairs of aligned runs."""

from collections import Counter

from generator import pair_seeds
from pairs.check import (
    BOTH_REFUSED, GRANTS_DIFFER, ILL_FORMED, ONE_CREDIT, ONE_LEND,
    OTHER_NUMBER, OTHER_SLOT, SAME_SLOT, WAYS)

REQUESTS = SAME_SLOT, OTHER_SLOT, BOTH_REFUSED, ILL_FORMED


class PairTally:
    def __init__(self):
        self.files = 0              # pairs
        self.met = 0                # pairs that met the premise
        self.met_later = 0          # the same with k of 2 and more
        self.broken = Counter()     # the premise that others broke first
        self.ways = Counter()

    def add(self, verdict):
        self.files += 1
        if verdict.broken:
            self.broken[verdict.broken] += 1
        else:
            self.met += 1
            self.met_later += verdict.changes >= 2
        self.ways += verdict.ways

    def join(self, other):
        self.files += other.files
        self.met += other.met
        self.met_later += other.met_later
        self.broken += other.broken
        self.ways += other.ways

    def trouble(self):
        """What came up too seldom, once each kind of pairs was there."""
        if self.files < pair_seeds.PAIRS * len(pair_seeds.ORDER):
            return None
        never = [way for way in WAYS if not self.ways[way]]
        seldom = 2 * self.met_later < self.files
        return (seldom and "the premise is met with k of 2 and more by %d of "
                "%d" % (self.met_later, self.files)
                or never and "never seen: %s" % "; ".join(never))

    def counts(self, ways):
        return ", ".join("%s %d" % (way, self.ways[way]) for way in ways)

    def text(self):
        requests = sum(self.ways[way] for way in REQUESTS)
        return "\n".join([
            "%d pairs of aligned runs; the premise is met by %d, by %d with k "
            "of 2 and more" % (self.files, self.met, self.met_later),
            "  broken first: " + ", ".join(
                "%s %d" % pair for pair in sorted(self.broken.items())),
            "  %d requests after the first frame change: %s; %s"
            % (requests, self.counts(REQUESTS), self.counts([OTHER_NUMBER])),
            "  %s; requests %s" % (self.counts([ONE_CREDIT, ONE_LEND]),
                                   self.counts([GRANTS_DIFFER]))])

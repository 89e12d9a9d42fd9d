"""What came up on ways over several links."""

from collections import Counter

from generator import way_seeds

LENGTHS = range(1, way_seeds.MOST_LINKS + 1)


class WayTally:
    def __init__(self):
        self.files = 0              # ways
        self.tiles = 0              # that left the last link
        self.ahead = 0              # requests for tiles that were to come
        self.of_length = Counter()  # ways, by their links
        self.attained = Counter()   # ways on which the bound was, likewise
        self.after_burst = 0        # ways on which it was with a burst
        self.too_few = 0            # ways with a cell too few
        self.broken = 0             # of which so many were refused or late

    def add(self, verdict, too_few):
        self.files += 1
        if too_few:
            self.too_few += 1
            self.broken += bool(verdict.faults)
            return
        self.tiles += verdict.tiles
        self.ahead += verdict.ahead
        self.of_length[verdict.links] += 1
        self.attained[verdict.links] += verdict.attained
        self.after_burst += verdict.after_burst

    def join(self, other):
        for name, value in vars(other).items():
            setattr(self, name, getattr(self, name) + value)

    def trouble(self):
        """What never came up, once each kind was there at each length."""
        if self.files < way_seeds.MOST_LINKS * len(way_seeds.ORDER):
            return None
        missing = [links for links in LENGTHS if not self.attained[links]]
        return (missing and "not attained over links: %s" % missing
                or not self.ahead and "never asked ahead"
                or not self.after_burst and "never attained after a burst"
                or not self.broken and "never broken by a cell too few")

    def text(self):
        return ("%d ways over one to five links, on which %d tiles arrive; "
                "%d requests ahead of them\n  links: %s\n  attained after a "
                "burst on %d ways; %d with a cell too few, of which %d are "
                "refused a tile or late with one"
                % (self.files, self.tiles, self.ahead,
                   ", ".join("%d on %d ways, attained on %d"
                             % (links, self.of_length[links],
                                self.attained[links]) for links in LENGTHS),
                   self.after_burst, self.too_few, self.broken))

"""Tiles as they come to a source."""

import random


class Source:
    """Tiles of a stream as they come: by chance, and within its share and its
    burst unless a rate is given for it."""

    def __init__(self, stream, slots, options):
        self.share = stream.share
        self.burst = stream.burst
        self.slots = slots
        given = options.rates.get(stream.name, options.rate)
        self.free = given is not None
        self.rate = given if self.free else stream.share / slots
        self.chance = random.Random("%s %s" % (options.seed, stream.name))
        self.level = 0          # tiles past the share, frame by frame
        self.count = 0          # tiles that came in this frame
        self.kept = True        # share and burst were not passed so far

    def comes(self, slot):
        """How many tiles come in a slot: none or one."""
        if slot % self.slots == 0:
            self.level = max(0, self.level + self.count - self.share)
            self.count = 0
        come = self.chance.random() < self.rate
        room = self.share + self.burst - self.level - self.count
        if come and not self.free and room <= 0:
            come = False
        self.count += come
        self.kept = self.kept and self.level + self.count <= (
            self.share + self.burst)
        return int(come)

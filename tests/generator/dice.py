"""Random choices that come out alike for a seed on every Python version.

Only getrandbits is used, whose stream for a seed does not change.
"""

import random


class Dice:
    def __init__(self, seed):
        self._bits = random.Random(seed).getrandbits

    def below(self, limit):
        """A number from 0 to limit - 1."""
        if limit < 1:
            raise ValueError("nothing to choose from")
        width = max(1, (limit - 1).bit_length())
        while True:
            number = self._bits(width)
            if number < limit:
                return number

    def between(self, low, high):
        """A number from low to high, both included."""
        return low + self.below(high - low + 1)

    def chance(self, percent):
        return self.below(100) < percent

    def pick(self, choices):
        return choices[self.below(len(choices))]

    def shuffle(self, items):
        for last in range(len(items) - 1, 0, -1):
            other = self.below(last + 1)
            items[last], items[other] = items[other], items[last]

    def data(self, count):
        return bytes(self._bits(8) for _ in range(count))

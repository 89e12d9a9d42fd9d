"""A sort of call files: a seed to the bytes of its file, and to the kind of
its traffic."""

from generator.dice import Dice

LONG = "long"                   # one of the sort's long kinds, in turn
LEAST = 100                     # bytes of a file that is fed in pieces


class Sort:
    def __init__(self, name, kinds, order, long=None, ends=None, own=None,
                 other_calls=False):
        self.name = name            # of its tests
        self.kinds = dict(kinds)    # how a file is made, fewest and most calls
        self.order = order          # the kinds of seeds 0, 1, 2, then again
        self.long = list(long or {})
        self.ends = ends            # what may follow the calls of a file
        self.own = own or {}        # kinds that are no traffic
        self.other_calls = other_calls      # for allcalls' records alone
        for kind, (fewest, most) in (long or {}).items():
            self.kinds["long " + kind] = (kinds[kind][0], fewest, most)

    def kind_of(self, seed):
        """The name of the kind of file that a seed makes."""
        kind = self.order[seed % len(self.order)]
        if kind == LONG:
            return "long " + self.long[
                seed // len(self.order) % len(self.long)]
        return kind

    def place_of(self, seed):
        """How many of the seeds before have its kind."""
        rounds, place = divmod(seed, len(self.order))
        kind = self.order[place]
        return rounds * self.order.count(kind) + self.order[:place].count(kind)

    def generate(self, seed):
        """The bytes of the call file of a seed."""
        dice = Dice(seed)
        kind = self.kind_of(seed)
        if kind in self.own:
            return self.own[kind](dice, self.place_of(seed))
        make, fewest, most = self.kinds[kind]
        file = make(dice, dice.between(fewest, most))
        if self.ends:
            self.ends(dice, kind, file)
        return file.data()

    def small(self, seed, most):
        """Seeds of files with traffic that have at most so many bytes."""
        while True:
            if (self.kind_of(seed) not in self.own
                    and LEAST <= len(self.generate(seed)) <= most):
                yield seed
            seed += 1

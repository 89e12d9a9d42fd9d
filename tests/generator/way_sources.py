"""The source of a way: in which slots it asks for tiles, frame by frame; and
in which they came, where they come in bursts."""


class Source:
    """Asks in the slots of a table, for tiles that have just come."""

    def __init__(self, asks):
        self.asks = asks            # frame -> slots
        self.came = []              # the slot of each tile, or none is told
        self.burst = 0              # tiles beyond the share

    def slots(self, frame):
        return self.asks.get(frame, ())


def any_source(dice, frame_slots, share, frames):
    """At most its share of slots in each frame, with early and late ones."""
    def pick():
        return dice.pick([0, frame_slots - 1, dice.below(frame_slots)])
    return Source({
        frame: [frame * frame_slots + pick() for _ in range(
            dice.pick([share, share, dice.between(0, share)]))]
        for frame in range(frames)})


def latest_source(frame_slots, share, frames):
    """Late in frame 0, and then as early as may be: each tile finds its share
    of its own frame given away to those before it."""
    return Source({
        frame: [frame * frame_slots + (0 if frame else frame_slots - 1)]
        * share for frame in range(frames)})


def burst_source(dice, frame_slots, share, frames):
    """In any k frames in a row at most k shares of tiles come and a burst
    more; the oldest are asked for first, a share in each frame, and fewer
    only where none is left."""
    source = Source({})
    source.burst = dice.between(1, 3 * share)
    waiting, level, frame = [], 0, 0
    while frame < frames or waiting:
        most = share + source.burst - level if frame < frames else 0
        count = dice.pick([0, most, dice.between(0, most)])
        level = max(0, level + count - share)
        first = frame * frame_slots
        came = sorted(first + dice.pick([0, dice.below(frame_slots)])
                      for _ in range(count))
        source.came += came
        waiting += came
        asked, waiting = waiting[:share], waiting[share:]
        last = first
        source.asks[frame] = []
        for slot in asked:
            last = max(last, slot, first + dice.pick(
                [0, dice.below(frame_slots), frame_slots - 1]))
            source.asks[frame].append(last)
        frame += 1
    return source

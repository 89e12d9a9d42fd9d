"""Good plans of several shapes."""

import call_bytes


class Draft:
    """A plan that can still be changed before its bytes are made."""

    def __init__(self, frame_slots, window_frames, entries, spare=0):
        self.frame_slots = frame_slots
        self.window_frames = window_frames
        self.entries = entries              # lists: share, cells, from, to
        self.buffer = min(4095, sum(entry[1] for entry in entries) + spare)
        self.offset = 12
        self.flows = None                   # None: as many as the entries
        self.length = None                  # None: the right length
        self.tail = b""                     # bytes after the entries
        self.keep = None                    # None: all bytes

    def data(self):
        full = call_bytes.plan(self.frame_slots, self.window_frames,
                               self.buffer, self.entries, length=self.length,
                               flows=self.flows, offset=self.offset)
        return (full + self.tail)[:self.keep]


def node_pairs(dice, count):
    """Different pairs of different nodes; many share one end."""
    pairs = []
    near = dice.between(3, 64)
    while len(pairs) < count:
        pair = dice.below(max(near, count)), dice.below(max(near, count))
        if pair[0] != pair[1] and pair not in pairs:
            pairs.append(pair)
    return pairs


def split_shares(dice, frame_slots, flows):
    """Shares of at least 1 that add to at most F, often to exactly F."""
    shares = [1] * flows
    extra = frame_slots - flows
    if dice.chance(50):
        extra = dice.between(0, extra)
    for _ in range(extra):
        shares[dice.below(flows)] += 1
    return shares


def draft(dice, frame_slots, window_frames, flows, cells):
    """A good plan; `cells` gives the cells for a share."""
    shares = split_shares(dice, frame_slots, flows)
    entries = [[share, min(255, max(1, cells(share))), source, destination]
               for share, (source, destination)
               in zip(shares, node_pairs(dice, flows))]
    return Draft(frame_slots, window_frames, entries,
                 spare=dice.pick([0, 0, 1, 7, 4095]))


def any_frame(dice):
    """F and W with T at most 256."""
    window_frames = dice.between(2, 8)
    return dice.between(1, min(64, 256 // window_frames)), window_frames


def any_plan(dice, cells=None):
    frame_slots, window_frames = any_frame(dice)
    flows = dice.between(1, min(16, frame_slots))
    if cells is None:
        def cells(share):
            return dice.between(1, share * window_frames + 1)
    return draft(dice, frame_slots, window_frames, flows, cells)


def small_plan(dice):
    frame_slots = dice.between(1, 3)
    window_frames = dice.between(2, 8)
    flows = dice.between(1, frame_slots)
    return draft(dice, frame_slots, window_frames, flows,
                 lambda share: dice.between(1, share * window_frames + 2))


def dense_plan(dice):
    """F = 64, W = 4 and 16 flows that fill the frame."""
    def cells(share):
        return share * dice.between(1, 4) + dice.below(3)
    plan = draft(dice, 64, 4, 16, cells)
    if dice.chance(50):
        for entry in plan.entries:
            entry[0] = 4
    return plan

"""A seed to a stream's way over one to five links, and to its kind."""

from generator import good_plans
from generator.dice import Dice
from generator.traffic.on_the_way import Board, Way
from generator.way_sources import any_source, burst_source, latest_source

# The kinds: the most slots of a frame, the most frames of the window, and the
# frames in which the source asks.
KINDS = {
    "on arrival": (6, 4, 8),
    "shown": (6, 4, 8),
    "ahead": (5, 5, 7),
    "latest": (5, 3, 4),
    "single slots": (2, 8, 14),
    "wide": (16, 3, 4),
    "bursts": (4, 3, 8),
    "a cell too few": (5, 3, 8),
}

# The kinds of seeds 0, 1, 2 and so on, which then begin again.
ORDER = ("on arrival", "shown", "ahead", "latest", "on arrival",
         "single slots", "shown", "ahead", "wide", "latest", "ahead",
         "a cell too few", "bursts")
MOST_LINKS = 5


def kind_of(seed):
    """The name of the kind of way that a seed makes."""
    return ORDER[seed % len(ORDER)]


def too_few(seed):
    """Whether its cells are one fewer than are enough."""
    return kind_of(seed) == "a cell too few"


def links_of(seed):
    """How many links its way has."""
    return 1 + seed // len(ORDER) % MOST_LINKS


def draft(dice, frame_slots, window_frames, share, cells, all_taken):
    """A good plan with a flow of this share, and which flow that is."""
    left = frame_slots - share
    others = dice.between(min(1, left), min(4, left))
    shares = (good_plans.split_shares(dice, left, others) if others else [])
    if all_taken and others:
        shares[0] += left - sum(shares)
    stream = dice.below(others + 1)
    shares.insert(stream, share)
    pairs = good_plans.node_pairs(dice, len(shares))
    entries = [[each, cells if flow == stream else 255, *pair]
               for flow, (each, pair) in enumerate(zip(shares, pairs))]
    return good_plans.Draft(frame_slots, window_frames, entries), stream


def ahead_of(dice, kind, window_frames):
    """By how many frames tiles are asked for ahead, or None."""
    return dice.below(window_frames - 1) if kind == "ahead" else None


def cells_of(share, ahead, shown, fewer):
    """The cells that are enough (rules 22.8 and 22.9), or one fewer."""
    return max(1, (2 + (ahead or 0) + shown) * share - fewer)


def source_of(dice, kind, frame_slots, share, frames):
    if kind == "latest":
        return latest_source(frame_slots, share, frames)
    make = burst_source if kind == "bursts" else any_source
    return make(dice, frame_slots, share, frames)


class Generated:
    """The way of a seed."""

    def __init__(self, links, source):
        self.links = links          # the stream's flow and the call file
        self.source = source


def generate(seed):
    dice = Dice(seed)
    kind = kind_of(seed)
    most_slots, most_frames, frames = KINDS[kind]
    links = links_of(seed)
    window_frames = dice.between(2, most_frames)
    latest = kind == "latest"
    frame_slots = dice.between(1, most_slots)
    share = 1 if latest else dice.between(1, frame_slots)
    ahead = ahead_of(dice, kind, window_frames)
    boards = [
        Board(*draft(dice, frame_slots, window_frames, share, cells_of(
            share, ahead, kind == "shown" and place == links - 1,
            too_few(seed)), latest))
        for place in range(links)]
    source = source_of(dice, kind, frame_slots, share, frames)
    way = Way(dice, boards, source.slots, ahead, kind == "shown")
    if latest:
        way.greed = [100] * links
    return Generated(way.files(max(source.asks) + links + 3), source)


def files(seed):
    """The links' call files, each with the end of its name."""
    for place, (_, data) in enumerate(generate(seed).links, 1):
        yield "-%d" % place, data

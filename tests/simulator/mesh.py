"""Streams over the mesh: rules 16.1 to 16.3.  Each stream is walked hop by hop,
and its share counted on each hop."""

from collections import Counter

ACROSS = 8                      # boards in a row
BOARDS = 64
MOST_STREAMS = 64
MOST_SLOTS = 64


def hops(source, destination):
    """The hops of the way, each as the two boards: along the row until the
    column is the destination's, and then along that column."""
    at = source
    while at != destination:
        if at % ACROSS < destination % ACROSS:
            step = 1
        elif at % ACROSS > destination % ACROSS:
            step = -1
        elif at < destination:
            step = ACROSS
        else:
            step = -ACROSS
        yield at, at + step
        at += step


def loads(streams):
    """What each hop carries."""
    carried = Counter()
    for source, destination, share in streams:
        for hop in hops(source, destination):
            carried[hop] += share
    return carried


def fits(slots, source, destination, share):
    return (1 <= share <= slots and source < BOARDS and destination < BOARDS
            and source != destination)


def refusal_before_ways(slots, streams):
    """The refusal before any way is walked, or 0."""
    if len(streams) > MOST_STREAMS:
        return 25
    if not 1 <= slots <= MOST_SLOTS:
        return 3
    if not all(fits(slots, *stream) for stream in streams):
        return 4
    return 0


def overloads(slots, streams):
    """The hops that carry more than F, each with its two boards and what it
    carries, by the first board and then by the second."""
    return [(*hop, load) for hop, load in sorted(loads(streams).items())
            if load > slots]

"""The limits that a week's entries break: rule 19.4."""

from simulator.programme import MOST, OUTSIDE, SHARED, WEEK


def by_themselves(entries):
    """What is wrong with each entry's start and end."""
    for place, (start, end, _) in enumerate(entries):
        if start >= end:
            yield OUTSIDE, place, 0
        if end > WEEK:
            yield OUTSIDE, place, 1


def shared(entries):
    """Each entry that shares a minute with an earlier one, and the first of
    these: for each minute of the week the first entry that runs is kept."""
    first = {}
    for place, (start, end, _) in enumerate(entries):
        minutes = range(start, min(end, WEEK))
        earlier = [first[minute] for minute in minutes if minute in first]
        if earlier:
            yield SHARED, min(earlier), place
        for minute in minutes:
            first.setdefault(minute, place)


def of_week(entries):
    """The faults of a week, by number and then by place."""
    seen, count = entries[:MOST], len(entries)
    too_many = [(OUTSIDE, count, 2)] if count > MOST else []
    return [*by_themselves(seen), *too_many, *shared(seen)]

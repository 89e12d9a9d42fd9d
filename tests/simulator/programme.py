"""The week's programme: what runs at a minute, and refusals 28 and 29.

Rules 19.1 to 19.3.  The week is a list with a place for each of its minutes,
and each entry marks its own.
"""

WEEK = 7 * 24 * 60              # minutes
MOST = 64                       # entries
OUTSIDE, SHARED = 28, 29
DARK = None


def marked(entries):
    """The plan of each minute, or None where two entries mark one."""
    week = [DARK] * WEEK
    for start, end, plan in entries:
        # The end is no minute of the showing.
        for minute in range(start, end):
            if week[minute] is not DARK:
                return None
            week[minute] = plan
    return week


def breaks_limits(start, end, _plan):
    """It doesn't start before it ends, or lies outside."""
    return start >= end or start < 0 or end > WEEK


def plan_at(minute, entries):
    """The refusal (0 for none), and the plan that runs or DARK."""
    if (len(entries) > MOST or not 0 <= minute < WEEK
            or any(breaks_limits(*entry) for entry in entries)):
        return OUTSIDE, DARK
    week = marked(entries)
    return (SHARED, DARK) if week is None else (0, week[minute])

"""Minutes of the week as days and times: 0 is mon 00:00, and 10,080 is sun
24:00."""

import re

DAYS = ("mon", "tue", "wed", "thu", "fri", "sat", "sun")
HOUR, DAY = 60, 24 * 60
WEEK = 7 * DAY
TIME = re.compile(r"([0-9]{1,2}):([0-9]{2})\Z")


def called(minute):
    """The day and the time of a minute; what lies past the week stays a
    number."""
    if minute > WEEK:
        return str(minute)
    if minute == WEEK:
        return DAYS[-1] + " 24:00"
    return "%s %02d:%02d" % (DAYS[minute // DAY], minute % DAY // HOUR,
                             minute % HOUR)


def minute_of(day, time):
    """The minute of a day and a time as 20:15, up to 24:00; None for
    neither."""
    found = TIME.match(time)
    if day not in DAYS or not found:
        return None
    hour, past = map(int, found.groups())
    if past >= HOUR or HOUR * hour + past > DAY:
        return None
    return DAY * DAYS.index(day) + HOUR * hour + past

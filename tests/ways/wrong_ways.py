"""What the check of ways has to send back, and what it must not."""

from ways.by_hand import BROKEN, IN_TIME, STREAM, WRONG
from ways.check import judge


# Of the first way in time: its two tiles arrive in the slots 11 and 15, and
# two links take fewer than 12 slots without a burst.
CAME, TOO_EARLY = (3, 4), (3, 3)
LATE = "tile 1 arrives 12 slots after it came"


def verdict_on(way, *source):
    return judge([STREAM] * len(way.links),
                 [(link.data, link.lines) for link in way.links], *source)


def bursts():
    """Tiles that came so much earlier, without a burst and with one."""
    for name, source, right in (
            ("in time after it came", (CAME, 0), []),
            ("late after it came", (TOO_EARLY, 0), [LATE]),
            ("in time after a burst", (TOO_EARLY, 1), [])):
        faults = verdict_on(IN_TIME[0], *source).faults
        yield name, faults != right and "%r" % faults


def missed():
    """(name, what went wrong or None) for each way by hand."""
    for way in IN_TIME:
        verdict = verdict_on(way)
        yield way.name, verdict.faults and "sent back: %r" % verdict.faults
    yield ("the bound is attained, and told",
           not verdict_on(IN_TIME[0]).attained and "not told")
    yield from bursts()
    for way in BROKEN + WRONG:
        faults = verdict_on(way).faults
        told = any(way.words in fault for fault in faults)
        yield way.name, not told and "not sent back: %r" % faults

"""How a reset ended, and what it had come to: counted for the summary, since
each way has to come up among the files that are played."""

GRANTED = ("granted: a free slot", "granted: a booked slot",
           "granted: a slot that an earlier reset marked",
           "granted: twice in a free slot")
REFUSED = ("23: booked and nothing held", "23: booked and held later",
           "23: booked later and held now", "23: held now only",
           "23: held now and later")
WAYS = GRANTED + REFUSED


def granted(history):
    again = history.renewed == history.now
    if history.now in history.owner:
        return GRANTED[2 if again else 1]
    return GRANTED[3 if again else 0]


def held(history, flow):
    """Whether the flow holds something now, and whether at a later slot."""
    steps = list(history.levels(flow))
    slots = [slot for slot, _ in steps]
    # A level holds up to the slot before the next one.
    last = [slot - 1 for slot in slots[1:]] + [slots[-1] + history.total]
    later = any(level for (_, level), end in zip(steps, last)
                if end > history.now)
    return steps[0][1] > 0, later


def refused(history):
    levels = [held(history, flow) for flow in range(history.flows)]
    now = any(level for level, _ in levels)
    later = any(level for _, level in levels)
    if any(slot > history.now for slot in history.owner):
        return REFUSED[2 if now else 1 if later else 0]
    if now:
        return REFUSED[4 if later else 3]
    return None


def way(history, letter, number):
    """One of the ways, looked at before the answer is counted; None for an
    answer that is none of a reset."""
    if letter == "Z":
        return granted(history)
    return refused(history) if number == "23" else None

"""Local reset: rules 10.1 and 10.2."""

from simulator.lend import taken


def booked_later(link):
    """Some slot after the current one is booked."""
    return any(slot > link.ticks for slot in link.owner)


def holds_from_now_on(link, flow):
    """The flow holds something at the current slot, or at a later one of the
    window."""
    return any(link.from_slot(link.ticks, link.holdings(flow)))


def quiet(link):
    return not booked_later(link) and not any(
        holds_from_now_on(link, flow) for flow in range(link.plan.flows))


def reset(link):
    """The clock goes on, and so do holdings."""
    if not quiet(link):
        return "R", 23
    if taken(link):
        link.marked = link.ticks
    link.owner.clear()
    link.last_lent = -1             # the next lend looks from flow 0
    for number, flow in enumerate(link.flows):
        flow.frame = link.head_frame()
        flow.left = link.plan.share(number)
    return "Z", None

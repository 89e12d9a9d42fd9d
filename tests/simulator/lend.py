"""Lend, in turn: rules 9.1 to 9.4."""


def can_take(link, flow):
    """It has a cell free at the current slot and at every later one of the
    window."""
    held = link.from_slot(link.ticks, link.holdings(flow))
    return max(held) < link.plan.cells(flow)


def takers(link, mask):
    """The flows of the mask that can take the slot; bit i is for flow i."""
    return [flow for flow in range(link.plan.flows)
            if mask >> flow & 1 and can_take(link, flow)]


def taken(link):
    """The current slot is booked, or marked taken."""
    return link.ticks in link.owner or link.ticks == link.marked


def first_in_turn(link, flows):
    """The next one behind the flow that was lent to last, going round."""
    later = [flow for flow in flows if flow > link.last_lent]
    return min(later or flows)


def lend(link, mask):
    if mask >> link.plan.flows:         # a bit at n or above
        return "R", 8
    if taken(link):
        return "R", 17
    flows = takers(link, mask)
    if not flows:
        return "R", 18
    flow = first_in_turn(link, flows)
    link.last_lent = flow
    link.marked = link.ticks
    link.flows[flow].held_from.append(link.ticks)
    return "L", flow

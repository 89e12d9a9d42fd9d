"""Credit: rules 7.1 and 7.2."""


def refusal_of(link, flow, position):
    """Refusals 8 and 13 to 15 in their order, or 0."""
    if flow >= link.plan.flows:
        return 8
    if position >= link.plan.slots:
        return 13
    slot = link.slot_of(position)
    if not link.in_window(slot):
        return 14
    if 0 in link.from_slot(slot, link.holdings(flow)):
        return 15
    return 0


def credit(link, flow, position):
    refusal = refusal_of(link, flow, position)
    if refusal:
        return "R", refusal
    link.flows[flow].back_from.append(link.slot_of(position))
    return "C", None

"""Request, with its departure and its quantum number: rules 5.2, 5.3 and 6.1
to 6.6."""


def later_than_current(link, slot):
    """Later than CP when in HF."""
    return slot > link.ticks or link.frame_of(slot) != link.head_frame()


def valid(link, slot, holdings, cells):
    """Unbooked, later than CP when in HF, and from there to the end of the
    window the flow has a cell free (rule 6.2)."""
    return (slot not in link.owner
            and later_than_current(link, slot)
            and max(link.from_slot(slot, holdings)) < cells)


def arrival(link, departure):
    """The slot that a word's departure means, if that is still to come; None
    for a tile that has come: its departure is a position of the head frame up
    to CP, whatever slot the sender had in mind (rule 6.3)."""
    slot = link.slot_of(departure)
    return slot if link.in_window(slot) else None


def earliest_valid(link, number, holdings, comes):
    """The earliest slot of the flow's injection frame that is valid for this
    request, or None; and whether one before it would be but for the
    departure: a tile can't leave up to the slot that it comes in."""
    cells = link.plan.cells(number)
    but_for_departure = False
    for slot in link.slots_of(link.flows[number].frame):
        if valid(link, slot, holdings, cells):
            if comes is None or slot > comes:
                return slot, but_for_departure
            but_for_departure = True
    return None, but_for_departure


def book(link, number, slot):
    flow = link.flows[number]
    link.owner[slot] = number
    flow.held_from.append(slot)
    flow.left -= 1
    flow.granted += 1


def search(link, number, comes):
    """The slot that is booked and 0, or None and the refusal."""
    flow = link.flows[number]
    holdings = link.holdings(number)
    while True:
        refusal = 11
        if flow.left > 0:
            slot, but_for_departure = earliest_valid(
                link, number, holdings, comes)
            if slot is not None:
                book(link, number, slot)
                return slot, 0
            refusal = 20 if but_for_departure else 12
        if flow.frame == link.newest_frame():
            return None, refusal
        flow.frame += 1
        flow.left = link.plan.share(number)


def word_refusal(plan, word):
    """Refusals 8 to 10 in their order, or 0 (rules 5.1 and 5.2)."""
    flow = word >> 20 & 63
    if flow >= plan.flows:
        return 8
    if word >> 26 != plan.destination(flow):
        return 9
    if word & 1023 >= plan.slots:
        return 10
    return 0


def expected(link, number):
    """The quantum number of the flow's next word: its grants so far, whatever
    came in between (rule 5.3)."""
    return link.flows[number].granted % 1024


def request(link, word):
    refusal = word_refusal(link.plan, word)
    if refusal:
        return "R", refusal
    if word >> 10 & 1023 != expected(link, word >> 20 & 63):
        return "R", 24
    slot, refusal = search(link, word >> 20 & 63, arrival(link, word & 1023))
    if refusal:
        return "R", refusal
    return "G", slot % link.plan.slots

"""Which credits are taken (rule 22.12): those of cells that their flow holds,
and no others.  Each way in which a credit can end has to come up among the
files that are played."""

TAKEN = "taken: dated this frame", "taken: dated a later frame"
NO_CELL = ("8: no such flow", "13: no such position", "14: the current slot",
           "14: a slot of this frame that is gone",
           "15: nothing held in the slot of the date",
           "15: nothing held in a later slot alone")
WAYS = TAKEN + NO_CELL


def held(history, flow, date):
    """Whether the flow holds something in this slot, and whether in every
    later one."""
    levels = list(history.levels(flow))
    at_date = [level for slot, level in levels if slot <= date][-1]
    later = [level for slot, level in levels if slot > date]
    return at_date > 0, min(later, default=at_date) > 0


def dated(history, flow, position):
    """One of the ways, for a position that is still to come."""
    date = history.slot_after_now(position)
    there, later = held(history, flow, date)
    if there and later:
        return TAKEN[date // history.frame_slots > history.frame()]
    return NO_CELL[5 if there else 4]


def way(history, flow, position):
    """How the credit has to end, by what was granted, lent and taken."""
    if flow >= history.flows:
        return NO_CELL[0]
    if position >= history.total:
        return NO_CELL[1]
    if history.has_come(position):
        return NO_CELL[3 if history.now % history.total != position else 2]
    return dated(history, flow, position)

"""How a lend ended, and what it had come to: counted for the summary, since
each way has to come up among the files that are played."""

LENT = ("lent: one flow in the mask", "lent: all flows of the mask could",
        "lent: some flows of the mask couldn't")
BITS = "8: a free slot", "8: a taken slot"
TAKEN = "17: booked", "17: lent"
NO_FLOW = ("18: empty mask", "18: full at the current slot only",
           "18: full at later slots only", "18: full at both",
           "18: flows full in several ways")
WAYS = LENT + BITS + TAKEN + NO_FLOW


def where_full(history, flow):
    """Whether it holds all of its cells at the current slot, and whether at
    some later one."""
    now, *later = [level for _, level in history.levels(flow)]
    cells = history.cells[flow]
    return now >= cells, max(later, default=now) >= cells


def lent(full):
    if len(full) == 1:
        return LENT[0]
    return LENT[2] if any(any(places) for places in full) else LENT[1]


def no_flow(full):
    kinds = set(full)
    if not kinds:
        return NO_FLOW[0]
    if len(kinds) > 1:
        return NO_FLOW[4]
    return NO_FLOW[{(True, False): 1, (False, True): 2}.get(kinds.pop(), 3)]


def way(history, mask, letter, number):
    """One of the ways, looked at before the answer is counted; None for an
    answer that is none of a lend."""
    if letter == "R" and number == "8":
        return BITS[history.taken()]
    if letter == "R" and number == "17":
        return TAKEN[history.now not in history.owner]
    full = [where_full(history, flow) for flow in range(history.flows)
            if mask >> flow & 1]
    if letter == "L":
        return lent(full)
    return no_flow(full) if number == "18" else None

"""The limits that a plan breaks: rule 15.4.

A fault is a refusal's number and two numbers that name the place."""

FLOWS = 16                      # the most of a plan, and the most looked at
NODES = range(64)


def header_faults(slots, frames, buffer):
    """F, W, T and N, each beside the numbers that it may have."""
    return [(3, which, value) for which, (value, may_be) in enumerate((
        (slots, range(1, 65)), (frames, range(2, 9)),
        (slots * frames, range(257)), (buffer, range(1, 4096))))
        if value not in may_be]


def entry_faults(slots, flow, share, cells, source, destination):
    broken = (share not in range(1, slots + 1), cells not in range(1, 256),
              source not in NODES, destination not in NODES,
              source == destination)
    return [(4, flow, which) for which, is_so in enumerate(broken) if is_so]


def pair_faults(pairs):
    """The first flow of a pair, and each later one that has it too."""
    first = {}
    found = []
    for flow, pair in enumerate(pairs):
        if first.setdefault(pair, flow) != flow:
            found.append((5, first[pair], flow))
    return found


def of_plan(slots, frames, buffer, entries):
    """The faults of a plan, by number and then by place."""
    seen = entries[:FLOWS]
    found = [] if 1 <= len(entries) <= FLOWS else [(2, len(entries), 0)]
    found += header_faults(slots, frames, buffer)
    for flow, entry in enumerate(seen):
        found += entry_faults(slots, flow, *entry)
    found += pair_faults([tuple(entry[2:]) for entry in seen])
    for number, place, limit in ((6, 0, slots), (7, 1, buffer)):
        total = sum(entry[place] for entry in seen)
        if total > limit:
            found.append((number, total, limit))
    return found

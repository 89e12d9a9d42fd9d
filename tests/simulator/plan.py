"""Plan bytes read to a plan, and refusals 1 to 7: rules 2.1 to 2.4."""

HEADER = 12             # bytes before the flow part
ENTRY = 4               # bytes of one flow entry


class Plan:
    """The numbers of a plan, split into fields but not yet tested."""

    def __init__(self, data):
        self.data = bytes(data)
        # Six header fields of 16 bits, low byte first (rule 2.2).
        header = [data[i] + 256 * data[i + 1] for i in range(0, HEADER, 2)]
        self.length, self.flows, self.offset = header[:3]
        self.frame_slots, self.window_frames, self.buffer = header[3:]
        self.slots = self.frame_slots * self.window_frames      # T
        flow_part = data[HEADER:]
        self.entries = [tuple(flow_part[i:i + ENTRY])
                        for i in range(0, len(flow_part), ENTRY)]

    def share(self, flow):
        return self.entries[flow][0]

    def cells(self, flow):
        return self.entries[flow][1]

    def destination(self, flow):
        return self.entries[flow][3]


def counts_wrong(plan):
    return (not 1 <= plan.flows <= 16
            or plan.offset != HEADER
            or plan.length != HEADER + ENTRY * plan.flows)


def frame_wrong(plan):
    return (not 1 <= plan.frame_slots <= 64
            or not 2 <= plan.window_frames <= 8
            or not 1 <= plan.buffer <= 4095
            or plan.slots > 256)


def entry_wrong(plan, entry):
    share, cells, source, destination = entry
    return (not 1 <= share <= plan.frame_slots
            or not 1 <= cells <= 255
            or source > 63 or destination > 63
            or source == destination)


def some_entry_wrong(plan):
    return any(entry_wrong(plan, entry) for entry in plan.entries)


def pair_twice(plan):
    pairs = {entry[2:] for entry in plan.entries}
    return len(pairs) < len(plan.entries)


def shares_over(plan):
    return sum(entry[0] for entry in plan.entries) > plan.frame_slots


def cells_over(plan):
    return sum(entry[1] for entry in plan.entries) > plan.buffer


# The first test that applies gives the number (rule 2.3).
PLAN_TESTS = (
    (2, counts_wrong),
    (3, frame_wrong),
    (4, some_entry_wrong),
    (5, pair_twice),
    (6, shares_over),
    (7, cells_over),
)


def read_plan(data):
    """The refusal (0 for none) and the plan of exactly these plan bytes."""
    if len(data) < HEADER or data[0] + 256 * data[1] != len(data):
        return 1, None
    plan = Plan(data)
    for number, wrong in PLAN_TESTS:
        if wrong(plan):
            return number, None
    return 0, plan

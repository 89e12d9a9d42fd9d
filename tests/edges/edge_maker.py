"""How an edge is written: a call file beside the listing that the rules give
it.

Expected lines are worked out by hand.  In the comments "slot" is the number
without end, F, W, T, C, IF and HF are those of rule 1.4.  A request has the
flow's next quantum number, by the grants in the lines above it, where no other
is named; so has a word of a burst, whose step stands beside the lines of its
records.
"""

from collections import Counter

import call_bytes
from call_bytes import RESET, TICK, credit, lend    # noqa: F401 (for edges)

TO = 9              # every flow of the edges has this destination
BURST = 6           # the kind of a burst's record


class Edge:
    def __init__(self, name, data, lines):
        self.name = name
        self.data = data
        self.lines = lines


def ask(flow, departure=None, quantum=None, to=TO):
    """A request, made for the current position and the flow's next number.
    The tile has come, its departure being that position, where no other is
    named."""
    def made(current, granted, *lines):
        return call_bytes.request(
            to, flow, granted[flow] % 1024 if quantum is None else quantum,
            current if departure is None else departure)
    return made


def burst(*asks, **header):
    """A burst of these requests' words."""
    def made(current, granted, *lines):
        if len(lines) != len(asks):
            raise ValueError("a line for each word was meant")
        granted = Counter(granted)
        words = []
        for each, line in zip(asks, lines):
            record = each(current, granted)
            words.append(int.from_bytes(record[1:], "little"))
            granted.update(flows_granted(record, [line]))
        return call_bytes.burst(words, **header)
    return made


def plan(frame_slots, window_frames, *flows):
    """A plan from (share, cells) for each flow, N being the cells' sum."""
    sources = (node for node in range(1, 64) if node != TO)
    entries = [(share, cells, source, TO)
               for (share, cells), source in zip(flows, sources)]
    return call_bytes.plan(frame_slots, window_frames,
                           sum(cells for _, cells in flows), entries)


def flows_granted(record, lines):
    """The flows that are granted slots by the lines of a call."""
    words = record[5:] if record[0] == BURST else record[1:]
    for place, line in enumerate(lines):
        if line.startswith(("G ", "B 0 ")):
            word = int.from_bytes(words[4 * place:4 * place + 4], "little")
            yield word >> 20 & 63


def records(plan_bytes, steps):
    """The bytes of calls, of which those with words are told the current
    position and how many slots each flow was granted."""
    frame_slots, window_frames = plan_bytes[6], plan_bytes[8]
    current = 0
    granted = Counter()
    for call, *lines in steps:
        record = call(current, granted, *lines) if callable(call) else call
        yield record
        if record == TICK:
            current = (current + 1) % (frame_slots * window_frames)
        granted.update(flows_granted(record, lines))


def edge(name, plan_bytes, *steps):
    """An accepted plan, then calls, each beside its line, or a burst beside
    the lines of its records."""
    return Edge(name, plan_bytes + b"".join(records(plan_bytes, steps)),
                ["P 0"] + [line for _, *lines in steps for line in lines])


BASE = plan(4, 2, (2, 2), (2, 2))       # T = 8, two flows

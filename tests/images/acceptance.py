"""When an image is taken (rules 12.2 and 12.3), told from its bytes alone.

Each condition has a name, so that an image can be made which breaks it and no
other.  A condition that speaks of CP or of IF is looked at only where that is
a position or a frame at all.
"""

import struct

from simulator.plan import read_plan

HEADER = ("total length", "offset of the plan",
          "offset of positions", "count of positions",
          "offset of flows", "count of flows", "CP", "taken mark",
          "flow to look from")
HEADER_SIZE = 2 * len(HEADER)
NOBODY = 16
PLAN = "the plan passes"


class Flow:
    def __init__(self, entry, numbers):
        self.share, self.cells = entry[:2]
        self.frame, self.left, *self.held, self.number = numbers


class Tables:
    """The numbers after the header, with its last three: CP, the mark and the
    flow to look from."""

    def __init__(self, data, plan):
        self.plan = plan
        self.slots, self.frames = plan.frame_slots, plan.window_frames
        self.total = plan.slots
        self.current, self.taken, self.first = struct.unpack_from(
            "<3H", data, 12)
        at = HEADER_SIZE + plan.length
        self.owner = struct.unpack_from("<%dH" % self.total, data, at)
        at += 2 * self.total
        part = struct.Struct("<%dH" % (3 + self.total))
        self.flows = [
            Flow(entry, part.unpack_from(data, at + number * part.size))
            for number, entry in enumerate(plan.entries)]

    def booked(self, number, frame):
        """How many positions of a frame the flow booked."""
        start = frame * self.slots
        return self.owner[start:start + self.slots].count(number)

    def later(self):
        """The positions later than CP, each with the one before it: up to the
        end of the frame before the head, going round."""
        count = self.total - 1 - self.current % self.slots
        for step in range(1, count + 1):
            yield ((self.current + step - 1) % self.total,
                   (self.current + step) % self.total)

    def frames_after(self, frame):
        """The frames after this one, up to the newest."""
        newest = self.current // self.slots - 1
        return [(frame + step) % self.frames
                for step in range(1, (newest - frame) % self.frames + 1)]


def tables_of(image):
    """Those of an image that is taken."""
    rest = image[HEADER_SIZE:]
    length = rest[0] + 256 * rest[1]
    return Tables(image, read_plan(rest[:length])[1])


# ---- the conditions

def listed_header(plan):
    """The header of a plan's image but for CP, the mark and the flow to look
    from, which have conditions of their own."""
    positions_at = HEADER_SIZE + plan.length
    flows_at = positions_at + 2 * plan.slots
    total = flows_at + 2 * plan.flows * (3 + plan.slots)
    return (total, HEADER_SIZE, positions_at, plan.slots, flows_at,
            plan.flows)


def of_the_link(tables):
    if tables.current >= tables.total:
        yield "CP is below T"
    if tables.taken > 1:
        yield "the taken mark is 0 or 1"
    if tables.first >= tables.plan.flows:
        yield "the flow to look from is below n"
    if any(owner >= tables.plan.flows and owner != NOBODY
           for owner in tables.owner):
        yield "every owner is a flow or none"


def of_a_flow(tables, number, flow):
    """Those that need neither CP nor IF."""
    if any(tables.booked(number, frame) > flow.share
           for frame in range(tables.frames)):
        yield "bookings in a frame are at most the share"
    if any(held > flow.cells for held in flow.held):
        yield "holdings are 0 to the cells"
    if flow.number >= 1024:
        yield "the expected number is below 1,024"


def of_its_frame(tables, number, flow):
    if flow.frame >= tables.frames:
        yield "IF is below W"
        return
    if tables.booked(number, flow.frame) + flow.left != flow.share:
        yield "bookings in IF and C add to the share"
    if tables.current < tables.total and any(
            tables.booked(number, frame)
            for frame in tables.frames_after(flow.frame)):
        yield "no booking lies in a frame after IF"


def of_its_holdings(tables, number, flow):
    if tables.current >= tables.total:
        return
    rises = [(flow.held[position] - flow.held[before], position)
             for before, position in tables.later()]
    if any(rise > 1 for rise, _ in rises):
        yield "a later holding rises by at most one"
    if any(rise > 0 and tables.owner[position] != number
           for rise, position in rises):
        yield "a later holding rises only at a booked position"


def broken(data):
    """The conditions that an image breaks, by their names: those of the
    header's fields are the fields' names.  The buffer is no shorter than the
    header or the total length; of a shorter image than the plan's nothing but
    the header can be looked at."""
    length = int.from_bytes(data[HEADER_SIZE:HEADER_SIZE + 2], "little")
    refusal, plan = read_plan(data[HEADER_SIZE:HEADER_SIZE + length])
    if refusal:
        return {PLAN}
    listed = listed_header(plan)
    names = [name for name, wanted, found
             in zip(HEADER, listed, struct.unpack_from("<6H", data))
             if wanted != found]
    if len(data) < listed[0]:
        return set(names)
    tables = Tables(data, plan)
    names += of_the_link(tables)
    for number, flow in enumerate(tables.flows):
        for condition in (of_a_flow, of_its_frame, of_its_holdings):
            names += condition(tables, number, flow)
    return set(names)


def refusal_of(data):
    """21, 22, or 0 for an image that is taken."""
    if len(data) < HEADER_SIZE:
        return 21
    if len(data) < struct.unpack_from("<H", data)[0]:
        return 21
    return 22 if broken(data) else 0

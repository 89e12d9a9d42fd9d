"""Link images (rules 12.1 to 12.3): the bytes of a link, and the link of an
image that is taken.

The window's slots are those from the head frame's first on, and a position is
a slot's number modulo T: the tables of an image, which go round, are counted
from the history, and made into one.
"""

from simulator.link import Link
from simulator.plan import read_plan
from simulator.request import expected

NOBODY = 16             # the owner of a position that nobody booked
HEADER = 18             # bytes: nine fields


def fields(numbers):
    """16 bits each, low byte first."""
    return b"".join(number.to_bytes(2, "little") for number in numbers)


def numbers(data):
    return [data[i] + 256 * data[i + 1] for i in range(0, len(data), 2)]


# ---- a link to its image

def by_position(link, values):
    """What stands at the window's slots, in the order of their positions."""
    first = link.first_slot() % link.plan.slots
    return values[len(values) - first:] + values[:len(values) - first]


def window(link):
    """The window's slots."""
    first = link.first_slot()
    return range(first, first + link.plan.slots)


def owners(link):
    booked = [link.owner.get(slot, NOBODY) for slot in window(link)]
    return fields(by_position(link, booked))


def flow_part(link, number):
    """IF, C, the holdings at positions 0 to T - 1, and the quantum number of
    the next word."""
    flow = link.flows[number]
    return fields([flow.frame % link.plan.window_frames, flow.left,
                   *by_position(link, link.holdings(number)),
                   expected(link, number)])


def look_from(link):
    """The flow after the last one lent to; 0 where none was since the link was
    fresh or reset."""
    return (link.last_lent + 1) % link.plan.flows


def image_of(link):
    """A header, and without gaps the plan, the owners and the flows."""
    parts = [link.plan.data, owners(link),
             b"".join(flow_part(link, number)
                      for number in range(link.plan.flows))]
    places = [HEADER]
    for part in parts:
        places.append(places[-1] + len(part))
    plan_at, positions_at, flows_at, total = places
    header = [total, plan_at, positions_at, link.plan.slots,
              flows_at, link.plan.flows, link.ticks % link.plan.slots,
              int(link.ticks == link.marked), look_from(link)]
    return fields(header) + b"".join(parts)


# ---- an image that is taken to its link

def set_holdings(link, number, held):
    """Cells taken and given back so that this much is held at each position:
    what is held before the window, and then each rise and each fall."""
    flow = link.flows[number]
    level = flow.before = held[link.first_slot() % link.plan.slots]
    for slot in window(link):
        now = held[slot % link.plan.slots]
        flow.held_from += [slot] * (now - level)
        flow.back_from += [slot] * (level - now)
        level = now


def set_flow(link, number, part):
    frame, left, *held, granted = part
    head, frames = link.head_frame(), link.plan.window_frames
    link.flows[number].frame = head + (frame - head) % frames
    link.flows[number].left = left
    link.flows[number].granted = granted
    set_holdings(link, number, held)


def link_of(image):
    """The link whose current slot is numbered as its position."""
    (total, plan_at, positions_at, _, flows_at, count, now, taken,
     first) = numbers(image[:HEADER])
    link = Link(read_plan(image[plan_at:positions_at])[1])
    link.ticks = now
    link.marked = now if taken else None
    link.last_lent = first - 1
    booked = numbers(image[positions_at:flows_at])
    link.owner = {slot: booked[slot % link.plan.slots]
                  for slot in window(link)
                  if booked[slot % link.plan.slots] != NOBODY}
    size = (total - flows_at) // count
    for number in range(count):
        start = flows_at + number * size
        set_flow(link, number, numbers(image[start:start + size]))
    return link

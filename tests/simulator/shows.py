"""A show: the refusal of the whole, and the plan of each link: rules 25.1 to
25.3 and 25.6.  Each stream is walked hop by hop, and a plan is made for each
hop that was met."""

from simulator import mesh
from simulator.plan_writer import Asked, write_plan

ROOMY = 76              # bytes that hold any plan
NUMBERS = 5             # of each stream: three, and two for its cells


def flows(streams, cells):
    """Rules 25.1 and 25.2: the entries of each hop from a board of the mesh, in
    the order of the streams."""
    found = {}
    for (source, destination, share), (usual, last) in zip(streams, cells):
        for hop in mesh.hops(source, destination):
            if hop[0] < mesh.BOARDS:
                found.setdefault(hop, []).append(
                    (share, last if hop[1] == destination else usual,
                     source, destination))
    return found


def link_answers(slots, frames, buffer, streams, cells):
    """The refusal and the bytes of the plan of each hop, by both boards."""
    return [(hop, *write_plan(Asked(slots, frames, buffer, entries), ROOMY))
            for hop, entries in sorted(flows(streams, cells).items())]


def refusal(slots, streams, links):
    """Rule 25.3: that of the mesh, and then the first of the links."""
    number = mesh.refusal_before_ways(slots, streams)
    if not number and mesh.overloads(slots, streams):
        number = 25
    return number or next((r for _, r, _ in links if r), 0)


def line_of(hop, number, data):
    return "link %d %d %s" % (*hop, "R %d" % number if number else data.hex())


def lines(numbers):
    """The lines that answer the numbers of a show."""
    slots, frames, buffer = numbers[:3]
    count = (len(numbers) - 3) // NUMBERS
    streams = [tuple(numbers[3 + 3 * i:6 + 3 * i]) for i in range(count)]
    at = 3 + 3 * count
    cells = [tuple(numbers[at + 2 * i:at + 2 * i + 2]) for i in range(count)]
    links = link_answers(slots, frames, buffer, streams, cells)
    number = refusal(slots, streams, links)
    said = ["R %d" % number if number else "ok"]
    return said + [line_of(*link) for link in links]

"""README's plan and its seven calls.  It prints what each is answered."""

from nazgolv import Link, Refused

# F = 4, W = 2, N = 4; two flows to node 9, with share 2 and 2 cells each
PLAN = bytes([20, 0, 2, 0, 12, 0, 4, 0, 2, 0, 4, 0, 2, 2, 1, 9, 2, 2, 2, 9])


def request(link, flow):
    """For a tile that has come: its departure is CP."""
    number, position = link.number(flow), link.request(link.word(flow))
    return "flow %d, number %d: position %d" % (flow, number, position)


def credit(link, flow, position):
    link.credit(flow, position)
    return "flow %d: a cell is free from position %d on" % (flow, position)


def tick(link):
    flow = link.tick()
    return "position %d: %s" % (
        link.current(), "nobody's" if flow is None else "flow %d's" % flow)


LINK = Link.fresh(PLAN)
for call, *numbers in ((request, 0), (request, 0), (request, 0), (credit, 0, 4),
                       (request, 0), (request, 1), (tick,)):
    try:
        print(call(LINK, *numbers))
    except Refused as refused:
        print("refused with %d: %s" % (refused.number, refused))

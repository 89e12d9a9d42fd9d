"""Streams over the mesh, in words and drawn.

What fits, which links are over and what they carry, and the way of a stream
are domeplan's answers.  A stream's way are the links that are over where it
is asked for twice and a frame has one slot.
"""

from plan import program
from plan.ends import DONE, REFUSED, Trouble
from plan.report import Report, verdict

SIDE = 8                                # boards to a row
# Refusals: when each is given, and what to do.
F_IS_WRONG = (3, "F is not 1 to 64", "choose F from 1 to 64")
STREAM_IS_WRONG = (4, "a stream's share is not 1 to F, a board is above 63, "
                   "or it ends where it starts", "mend that stream")
TOO_MANY = (25, "there are more than 64 streams", "ask for at most 64 streams")
LINK_IS_OVER = (25, "on some link of the mesh the streams' shares add to more "
                "than F", "lower a share, or send a stream from another board")


class Stream:
    def __init__(self, number, source, destination, share):
        self.number = number
        self.source, self.destination, self.share = source, destination, share
        self.links = []             # its way, a pair of boards each

    def ends(self):
        return "from %d to %d" % (self.source, self.destination)

    def numbers(self):
        return self.source, self.destination, self.share

    def boards(self):
        return [self.source] + [end for _, end in self.links]

    def as_object(self):
        return {"stream": self.number, "source": self.source,
                "destination": self.destination, "share": self.share,
                "way": self.boards()}


# ---- what domeplan answers

def links_in(answer):
    """The links that an answer of mesh-over lists, with what they carry."""
    if answer == "ok":
        return {}
    return {(start, end): load for start, end, load in
            program.after("over", program.threes)(answer)}


def over_of(frame_slots, streams):
    return program.line("mesh-over", [frame_slots] + [
        number for stream in streams for number in stream.numbers()])


def wrong_here(number, frame_slots, streams):
    """The row of a refusal before any link is looked at, and what is wrong by
    itself."""
    if number == 3:
        return F_IS_WRONG, "F is %d" % frame_slots
    if number == 25:
        return TOO_MANY, "there are %d" % len(streams)
    if number != 4:
        raise program.odd("R %d" % number)
    alone = program.ask_all([over_of(frame_slots, [stream])
                             for stream in streams],
                            program.or_refused(links_in))
    return STREAM_IS_WRONG, ", ".join(
        "stream %d goes %s with share %d" % (stream.number, stream.ends(),
                                             stream.share)
        for stream, told in zip(streams, alone)
        if isinstance(told, program.Refused))


def in_order(stream, links):
    """The links of a way, one after the other from its source."""
    following = dict(links)
    at, way = stream.source, []
    while at in following:
        way.append((at, following.pop(at)))
        at = way[-1][1]
    if at != stream.destination or len(way) != len(links):
        raise Trouble("domeplan answered a way that doesn't lead %s"
                      % stream.ends())
    return way


def take_ways(streams):
    told = program.ask_all([over_of(1, 2 * [Stream(
        0, stream.source, stream.destination, 1)]) for stream in streams],
        links_in)
    for stream, links in zip(streams, told):
        stream.links = in_order(stream, list(links))


# ---- in words, and drawn

def table(streams):
    yield "stream  source  destination  share  way"
    for stream in streams:
        yield "%6d  %6d  %11d  %5d  %s" % (
            stream.number, *stream.numbers(),
            " ".join(map(str, stream.boards())))


# Unused; forth, used or over; back, used or over; both, and one of both over.
RIGHT = ("    ", " -> ", " !> ", " <- ", " <! ", "<-> ", "<!> ")
DOWN = ("  ", " v", "!v", " ^", "!^", " |", "!|")


def sign(forth, back, signs):
    """The sign for the two links between two boards, each of which is unused,
    used or over, 0 to 2."""
    if forth and back:
        return signs[5 + (2 in (forth, back))]
    return signs[forth] if forth else signs[2 + back] if back else signs[0]


def drawn(used, over):
    """The mesh, a row of boards a line, with the links that are used."""
    def state(start, end):
        return (2 if (start, end) in over else 1 if (start, end) in used
                else 0)

    def between(start, end, signs):
        return sign(state(start, end), state(end, start), signs)

    for first in range(0, SIDE * SIDE, SIDE):
        boards = range(first, first + SIDE)
        yield "".join("%2d%s" % (board, between(board, board + 1, RIGHT))
                      for board in boards[:-1]) + "%2d" % boards[-1]
        if first + SIDE < SIDE * SIDE:
            yield "    ".join(between(board, board + SIDE, DOWN)
                              for board in boards).rstrip()
    yield "-> <- v ^ is a link that is used, <-> and | are two; one with ! " \
        "is over"


def over_lines(streams, over, frame_slots):
    """A sentence for each link that is over."""
    for (start, end), load in sorted(over.items()):
        on_it = [stream for stream in streams if (start, end) in stream.links]
        yield "over: the link from %d to %d carries %d slots of %d, %d too " \
            "many: %s" % (start, end, load, frame_slots, load - frame_slots,
                          ", ".join("stream %d (%s) has %d" % (
                              stream.number, stream.ends(), stream.share)
                              for stream in on_it))


# ---- reports

def refused(refusal, here, lines=(), **more):
    number, when, what_to_do = refusal
    return Report(lines, verdict(REFUSED, refusal=number, faults=[
        {"number": number, "says": "%s; here %s" % (when, here)}], **more), [
            "the streams are refused with %d: %s; here %s" % (number, when,
                                                              here),
            "what to do: " + what_to_do], REFUSED)


def report(frame_slots, streams):
    """The ways, the mesh, and which links are over."""
    try:
        answer = program.ask(over_of(frame_slots, streams), links_in)
    except program.Refused as refusal:
        return refused(*wrong_here(refusal.number, frame_slots, streams))
    take_ways(streams)
    used = {link for stream in streams for link in stream.links}
    lines = [*table(streams), "", *drawn(used, answer), ""]
    numbers = {"F": frame_slots,
               "streams": [stream.as_object() for stream in streams],
               "over": [{"from": start, "to": end, "carries": load}
                        for (start, end), load in sorted(answer.items())]}
    if answer:
        return refused(LINK_IS_OVER, "1 link is over" if len(answer) == 1
                       else "%d links are over" % len(answer),
                       lines + list(over_lines(streams, answer, frame_slots)),
                       **numbers)
    return Report(lines + ["fits: no link carries more than %d slots of a "
                           "frame" % frame_slots], verdict(DONE, **numbers))


def of_numbers(numbers):
    """The streams after F."""
    return [Stream(place // 3, *numbers[place:place + 3])
            for place in range(0, len(numbers), 3)]

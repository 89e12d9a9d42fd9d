"""The trace of a call file: its bytes in, and after each call what is so then
(section 26)."""

from simulator.burst import HANDLED, UNTOUCHED, filled
from simulator.calls import answer
from simulator.link import Link
from simulator.listing import split_file
from simulator.plan import read_plan
from simulator.records import DOMELINK, read_record, split
from simulator.request import expected, request

NOBODY = 16
KINDS = {"request": 1, "credit": 2, "tick": 3, "lend": 4, "reset": 5}
WORDS = 6                       # the kind of a burst, and of its words


def line(letter, *numbers):
    return " ".join([letter, *map(str, numbers)])


# ---- the link and a flow of it (rules 26.4 and 26.6)

def link_part(link):
    return [link.ticks % link.plan.slots, int(link.marked == link.ticks),
            (link.last_lent + 1) % link.plan.flows]


def held_last(link, flow):
    return link.holdings(flow)[-1]


def flow_part(link, flow, slot):
    """The flow, and the position that the slot has."""
    own = link.flows[flow]
    return [own.frame % link.plan.window_frames, own.left,
            expected(link, flow), slot - link.ticks,
            link.owner.get(slot, NOBODY),
            link.holdings(flow)[slot - link.first_slot()],
            held_last(link, flow)]


def told(link, letter, number, value, call, flow=None, slot=None):
    """An answer's line: about a flow and a slot, if the plan has the flow."""
    numbers = [number, value, *call, *[0] * (5 - len(call)), *link_part(link)]
    if flow is not None and flow < link.plan.flows:
        numbers += flow_part(link, flow, link.ticks if slot is None else slot)
    return line(letter, *numbers)


def flow_lines(link):
    """Rule 26.7."""
    for number, flow in enumerate(link.flows):
        yield line("F", number, flow.frame % link.plan.window_frames,
                   flow.left, held_last(link, number))


# ---- calls

def word_fields(word):
    return [word >> 20 & 63, word >> 10 & 1023, word & 1023, word >> 26]


def word_line(link, kind, word, letter, result, position):
    """A word's line; a slot is booked where the result is 0."""
    call = [kind, *word_fields(word)]
    slot = None if result else link.slot_of(position)
    return told(link, letter, result, position, call, call[1], slot)


def request_lines(link, letter, number, word):
    yield word_line(link, 1, word, letter, *filled(letter, number))


def credit_lines(link, letter, number, flow, position):
    slot = link.slot_of(position) if letter == "C" else None
    yield told(link, letter, number or 0, 0, [2, flow, position], flow, slot)


def tick_lines(link, letter, owner):
    change = link.ticks % link.plan.frame_slots == 0
    yield told(link, letter, 0, NOBODY if owner == "-" else owner,
               [3, int(change)])
    if change:
        yield from flow_lines(link)


def lend_lines(link, letter, number, mask):
    if letter == "L":
        yield told(link, letter, 0, number, [4, mask], number)
    else:
        yield told(link, letter, number, 0, [4, mask])


def reset_lines(link, letter, number):
    yield told(link, letter, number or 0, 0, [5])
    if letter == "Z":
        yield from flow_lines(link)


LINES = {"request": request_lines, "credit": credit_lines,
         "tick": tick_lines, "lend": lend_lines, "reset": reset_lines}


def burst_lines(link, words):
    """Rule 26.8."""
    yield told(link, "W", 0, 0, [WORDS, len(words)])
    for place, word in enumerate(words):
        result = UNTOUCHED
        if place < HANDLED:
            result = filled(*request(link, word))
        yield word_line(link, WORDS, word, "B", *result)


def lines_of(link, record, call):
    if call is None:
        yield "X " + bytes(record).hex()            # rule 26.9
    elif call[0] == "burst":
        yield from burst_lines(link, *call[1:])
    else:
        letter, number = answer(link, call)
        yield from LINES[call[0]](link, letter, number, *call[1:])


def trace(data, kinds=DOMELINK):
    """The trace of a call file, as lines."""
    parts = split_file(data)
    refusal, plan = read_plan(parts[0]) if parts else (1, None)
    if refusal:
        return [line("P", refusal)]
    lines = [line("P", 0, plan.frame_slots, plan.window_frames, plan.buffer,
                  plan.flows)]
    lines += [line("E", *entry) for entry in plan.entries]
    link = Link(plan)
    for record in split(parts[1], kinds):
        lines += lines_of(link, record, read_record(record, kinds))
    return lines


# ---- back to the listing

def answer_line(words):
    """The listing's line that a line of the trace stands for, or None."""
    letter, number, value = words[0], words[1], words[2:3]
    if letter == "X":
        return "R 16"
    if letter in ("P", "R"):
        return "%s %s" % (letter, number)
    if letter in ("C", "Z"):
        return letter
    if letter == "B":
        return "B %s %s" % (number, *value)
    if letter in ("G", "T", "L"):
        return "%s %s" % (letter, "-" if letter == "T"
                          and value == [str(NOBODY)] else value[0])
    return None


def listing_of(lines):
    """The listing that a trace stands for."""
    return [text for text in (answer_line(each.split()) for each in lines)
            if text]

"""The window after a call as SVG."""

from xml.sax.saxutils import escape

import colours
from window import current_place, frames_of, holding_words, lent_note
from words import plural

FONT = "font-family='sans-serif'"
LABEL, GAP = 112, 6             # the room for labels, and between parts
NARROW, BROAD = 16, 28          # a slot's width, for long and short frames
TALL = 22                       # a slot's height
CURVE = 34                      # a curve's height
HEADING = 15                    # the size of a heading's letters
LETTER = 0.62                   # a letter's width at size 1, rather more
LEAST = 12                      # letters that a name keeps


def text(x, y, words, size=12, colour=colours.DARK, more=""):
    return "<text x='%g' y='%g' font-size='%g' fill='%s' %s %s>%s</text>" % (
        x, y, size, colour, FONT, more, escape(words))


def rect(x, y, width, height, colour, more=""):
    return "<rect x='%g' y='%g' width='%g' height='%g' fill='%s' %s/>" % (
        x, y, width, height, colour, more)


def shortened(name, rest, width):
    """A name that fits into a heading of this width before the rest: of one
    that is too long the beginning and the end."""
    room = max(LEAST, int(width / (HEADING * LETTER)) - len(rest))
    if len(name) <= room:
        return name
    return name[:room - 3 - room // 2] + "..." + name[-(room // 2):]


def heading(name, rest, width):
    """The first line of a picture."""
    return text(GAP, 20, shortened(name, rest, width - 2 * GAP) + rest,
                HEADING, more="font-weight='bold'")


def document(width, height, title, description, parts):
    """A whole SVG with a title and a description for screen readers."""
    return "\n".join([
        "<svg xmlns='http://www.w3.org/2000/svg' role='img' width='%g' "
        "height='%g' viewBox='0 0 %g %g'>" % (width, height, width, height),
        "<title>%s</title>" % escape(title),
        "<desc>%s</desc>" % escape(description),
        rect(0, 0, width, height, colours.LIGHT), *parts, "</svg>", ""])


def slot_width(plan):
    return NARROW if plan.frame_slots > 32 else BROAD


def flow_box(flow, x, y, width, height):
    """A box in the flow's colour with its number."""
    parts = [rect(x, y, width, height, colours.fill(flow))]
    if colours.barred(flow):
        parts.append(rect(x, y + height - 5, width, 3, colours.ink(flow)))
    parts.append(text(x + width / 2, y + height / 2 + 2, str(flow), 10,
                      colours.ink(flow), "text-anchor='middle'"))
    return parts


def owner_box(owner, x, y, width):
    line = rect(x, y, width - 1, TALL, "none", "stroke='#888888'")
    if owner is None:
        return [line]
    return flow_box(owner, x, y, width - 1, TALL) + [line]


def frame_label(state, place):
    """A frame's place in the window, and its first and last position."""
    size = state.plan.frame_slots
    first = state.positions[place * size]
    name = {0: "head ", state.plan.window_frames - 1: "newest "}.get(place, "")
    last = " to %d" % (first + size - 1) if size > 1 else ""
    return "%s%d%s" % (name, first, last)


def owner_parts(state, top):
    """A row for each frame, and the mark at CP."""
    width = slot_width(state.plan)
    parts = []
    for place, owners in enumerate(
            frames_of(state.owners, state.plan.frame_slots)):
        y = top + place * (TALL + GAP)
        parts.append(text(GAP, y + 15, frame_label(state, place), 11))
        for slot, owner in enumerate(owners):
            parts += owner_box(owner, LABEL + slot * width, y, width)
    x = LABEL + current_place(state) * width
    parts.append(rect(x, top, width - 1, TALL, "none",
                      "stroke='#000000' stroke-width='3'"))
    return parts + [current_label(state, x, x + width - 1, top - 4)]


def current_label(state, left, right, y):
    """The words above CP, towards the middle of the row."""
    words = "CP %d%s" % (state.current_position, lent_note(state))
    size = state.plan.frame_slots
    if size > 16 and current_place(state) >= size / 2:
        return text(right, y, words, 11,
                    more="font-weight='bold' text-anchor='end'")
    return text(left, y, words, 11, more="font-weight='bold'")


def steps_path(held, x, y, width, height, cells):
    """The path of holdings: a step at each slot where they change."""
    each = width / len(held)
    path, before = ["M%g %g" % (x, y + height)], 0
    for place, number in enumerate(held):
        if number != before:
            path.append("H%g V%g" % (round(x + place * each, 2), round(
                y + height - height * number / cells, 2)))
            before = number
    return " ".join(path) + " H%g V%g Z" % (x + width, y + height)


def upright(x, y, colour, width=1):
    """A line through a curve: a frame's beginning, or CP."""
    return "<path d='M%g %g v%g' stroke='%s' stroke-width='%g'/>" % (
        x, y, CURVE - 6, colour, width)


def curve_parts(state, flow, y, width):
    """One flow's words, and its curve under the line of its cells."""
    plan, base = state.plan, y + 16
    held = state.holdings[flow.number]
    parts = flow_box(flow.number, GAP, base, 24, 20)
    parts.append(text(LABEL, y + 11, holding_words(state, flow), 11))
    parts.append("<path d='%s' fill='%s' stroke='#000000'/>" % (
        steps_path(held, LABEL, base, width, CURVE - 6, flow.cells),
        colours.fill(flow.number)))
    for frame in range(1, plan.window_frames):
        parts.append(upright(LABEL + width * frame / plan.window_frames, base,
                             "#888888"))
    parts.append(upright(LABEL + width * (current_place(state) + 0.5)
                         / plan.positions, base, colours.DARK, 2))
    parts.append("<path d='M%g %g H%g' stroke='#000000' "
                 "stroke-dasharray='4 3'/>" % (LABEL, base, LABEL + width))
    parts.append(text(GAP + 28, base + 4, "cells %d" % flow.cells, 10))
    return parts


def window_words(state):
    """The lines below the heading."""
    plan = state.plan
    return ["F = %d, W = %d, T = %d, N = %d; slot %d is current." % (
        plan.frame_slots, plan.window_frames, plan.positions, plan.buffer,
        state.slot),
        "A number is the flow that booked; in a curve the dashed line is its "
        "cells, the upright one CP."]


def description_of(state):
    plan = state.plan
    booked = sum(owner is not None for owner in state.owners)
    return ("The window's %d positions, %d of them booked, and what %s "
            "against its cells." % (
                plan.positions, booked, plural(
                    len(plan.flows), "flow holds", "flows hold, each")))


def window(state, last, name):
    """The SVG of a state; `last` is the number of the last call."""
    plan = state.plan
    width = max(slot_width(plan) * plan.frame_slots, 640)
    rest = " after call %d of %d" % (state.calls, last)
    whole = LABEL + width + GAP
    parts = [heading(name, rest, whole)]
    parts += [text(GAP, 40 + 16 * line, words)
              for line, words in enumerate(window_words(state))]
    top = 90
    parts += owner_parts(state, top)
    y = top + plan.window_frames * (TALL + GAP) + GAP
    for flow in plan.flows:
        parts += curve_parts(state, flow, y, width)
        y += CURVE + 18
    return document(whole, y, name + rest, description_of(state), parts)

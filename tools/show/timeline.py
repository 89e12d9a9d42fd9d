"""Booked, lent and idle slots of a call file or of a stretch of it, and its
refusals, by flow, as SVG."""

from collections import Counter

import colours
from svg import GAP, LETTER, document, heading, rect, text
from trace_words import (
    AHEAD, FLOW, KIND, LEND, NOBODY, REFUSAL, RESET, UNTOUCHED, VALUE)
from words import plural

MOST = 16384                    # slots of a picture
BAND, WIDE = 256, 1024          # slots in a band, and the width of a full one
BROAD, ROW = 24, 14             # the most that a slot is wide, a row's height
LABEL, LEAST = 70, 560          # the room for labels, and the least width
AXIS, SMALL = 18, 11            # an axis' height, and its letters' size
EDGE, IDLE = "#333333", "#b8b8b8"
STRIPE = "#f1f1f1"              # behind every second flow
PALE = "fill-opacity='0.35' "   # of a slot that is still to come
STEPS = (1, 2, 5, 10, 20, 50, 100)      # slots between two numbers of an axis


class Ledger:
    """Whose each slot of a stretch was, and in which of them calls were
    refused, from the lines of a trace; None is a flow that the plan has not,
    or a call that is no flow's."""

    def __init__(self, plan, first=0, last=None):
        self.plan = plan
        self.first = first              # slot of the stretch
        self.last = first + MOST - 1    # of it, at most
        self.cut = last is None or last > self.last     # by that
        if not self.cut:
            self.last = last
        self.asked = first > 0 or last is not None      # for a stretch
        self.calls = self.slot = 0
        self.over = False               # the stretch has gone by
        self.flows = len(plan.flows)
        self.booked, self.lent = {}, {}         # slot -> flow
        self.refused = Counter()                # by slot and flow
        self.takes = {"G": self.grant, "L": self.lend, "R": self.refuse,
                      "X": self.no_call, "B": self.word, "T": self.tick,
                      "C": None, "Z": None, "W": None, "F": None}

    def add(self, lines):
        for line in lines:
            words = line.split()
            take = self.takes[words[0]]
            if take:
                take(words)
                if self.over:
                    return
            self.calls += words[0] not in "FB"

    # ---- lines

    def tick(self, words):
        self.over = self.slot == self.last
        self.slot += not self.over

    def grant(self, words):
        slot = self.slot + int(words[AHEAD])
        if self.first <= slot <= self.last:
            self.booked[slot] = self.plan.flows[int(words[FLOW])].number

    def lend(self, words):
        if self.first <= self.slot:
            self.lent[self.slot] = self.plan.flows[int(words[VALUE])].number

    def word(self, words):
        if words[REFUSAL] == "0":
            self.grant(words)
        elif words[REFUSAL] != UNTOUCHED:
            self.refuse(words)

    def refuse(self, words):
        flow = words[FLOW] if words[KIND] not in (LEND, RESET) else NOBODY
        self.no_call(words, int(flow) if self.plan.has(flow) else None)

    def no_call(self, words, flow=None):
        if self.first <= self.slot:
            self.refused[self.slot, flow] += 1

    # ---- what it comes to

    @property
    def end(self):
        """The last slot drawn."""
        return max([self.slot, *self.booked])

    @property
    def idle(self):
        return {slot for slot in range(max(self.first, 1), self.slot + 1)
                if slot not in self.booked and slot not in self.lent}

    def count(self, side, flow):
        return sum(owner == flow for owner in side.values())

    def refused_of(self, flow):
        return sum(count for (_, refused), count in self.refused.items()
                   if refused == flow)

    @property
    def rows(self):
        """A row for each flow, one for idle slots, and one for refusals of no
        flow, where there are any."""
        return self.flows + 1 + (self.refused_of(None) > 0)

    def row(self, flow):
        """The row that has a flow's refusals."""
        return self.flows + 1 if flow is None else flow


class Band:
    """A row of slots: the first of them, one past the last, where it stands,
    and how wide a slot is."""

    def __init__(self, first, ledger, top):
        self.first, self.top = first, top
        self.last = min(first + BAND, ledger.end + 1)
        self.slot = slot_width(ledger)
        self.bottom = top + ledger.rows * ROW

    def has(self, slot):
        return self.first <= slot < self.last

    def place(self, slot, row):
        """The left upper corner of a slot."""
        return (LABEL + (slot - self.first) * self.slot, self.top + row * ROW)

    def mark(self, slot, flow, to_come=False):
        """A booked slot in its flow's colour, pale while it is to come."""
        return flow_mark(flow, *self.place(slot, flow), self.slot, ROW - 1,
                         PALE if to_come else "")

    def lent_mark(self, slot, flow):
        """Lower than a booked slot's mark, so that it differs in shape."""
        x, y = self.place(slot, flow)
        return flow_mark(flow, x, y + ROW / 2 - 1, self.slot, ROW / 2)

    def refused_mark(self, slot, row):
        x, y = self.place(slot, row)
        return wedge(x + self.slot / 2, y)

    def name(self):
        if self.last - self.first == 1:
            return "slot %d" % self.first
        return "slots %d to %d" % (self.first, self.last - 1)


def flow_mark(flow, x, y, width, height, more=""):
    """A flow's fill within a thin edge; a bar along the bottom where it has
    one."""
    mark = rect(x + 0.5, y + 0.5, width - 1, height - 1, colours.fill(flow),
                more + "stroke='%s' stroke-width='0.5'" % EDGE)
    if not colours.barred(flow):
        return mark
    return mark + rect(x + 1, y + height - 4, width - 2, 2, colours.ink(flow))


def wedge(x, y):
    """A refusal: black with a white edge, so that it shows on every fill."""
    return ("<path d='M%g %g h7 l-3.5 7 z' fill='#000000' stroke='#ffffff' "
            "stroke-width='0.8'/>" % (x - 3.5, y - 1))


def slots_across(ledger):
    """The slots of the longest band."""
    return min(BAND, ledger.end + 1 - ledger.first)


def slot_width(ledger):
    """Of a short file slots are wider, so that it fills the picture."""
    return min(BROAD, WIDE // slots_across(ledger))


# ---- a band

def label(flow, y):
    """A flow's colour and name before its row."""
    return [flow_mark(flow, GAP, y + 1, 10, ROW - 3),
            text(GAP + 14, y + 11, "flow %d" % flow, SMALL)]


def row_labels(ledger, band):
    parts = [text(LABEL, band.top - 5, band.name(), SMALL)]
    for flow in range(ledger.flows):
        y = band.top + flow * ROW
        if flow % 2 == 0:
            parts.append(rect(LABEL, y, band.slot * (band.last - band.first),
                              ROW, STRIPE))
        parts += label(flow, y)
    others = ("idle", "no flow")[:ledger.rows - ledger.flows]
    return parts + [text(GAP, band.top + (ledger.flows + place) * ROW + 11,
                         name, SMALL) for place, name in enumerate(others)]


def frame_lines(plan, band):
    """A line where each frame begins."""
    return ["<path d='M%g %g V%g' stroke='#888888' stroke-width='0.5'/>" % (
        *band.place(slot, 0), band.bottom)
        for slot in range(band.first, band.last)
        if slot % plan.frame_slots == 0]


def number_step(ledger):
    """The slots between two numbers of an axis, so that none touches the
    next."""
    room = SMALL * LETTER * (len(str(ledger.end)) + 1)
    return next(step for step in STEPS if step * slot_width(ledger) >= room)


def axis(ledger, band):
    """A line below a band, and numbers of slots in the middle of them."""
    step, y = number_step(ledger), band.bottom + 2
    right = LABEL + band.slot * (band.last - band.first)
    parts = ["<path d='M%g %g H%g' stroke='%s'/>" % (LABEL, y, right, EDGE)]
    for slot in range(-(-band.first // step) * step, band.last, step):
        middle = band.place(slot, 0)[0] + band.slot / 2
        parts.append("<path d='M%g %g v3' stroke='%s'/>" % (middle, y, EDGE))
        parts.append(text(middle, y + 13, str(slot), SMALL,
                          more="text-anchor='middle'"))
    return parts


def band_parts(ledger, plan, band):
    """A band's rows, the marks of its slots, and its axis."""
    parts = row_labels(ledger, band) + frame_lines(plan, band)
    slots, idle = range(band.first, band.last), ledger.idle
    parts += [band.mark(slot, ledger.booked[slot], slot > ledger.slot)
              for slot in slots if slot in ledger.booked]
    parts += [band.lent_mark(slot, ledger.lent[slot])
              for slot in slots if slot in ledger.lent]
    parts += [rect(*band.place(slot, ledger.flows), band.slot, ROW - 1, IDLE)
              for slot in slots if slot in idle]
    # Of several refusals in a slot one is drawn.
    parts += [band.refused_mark(slot, ledger.row(flow))
              for slot, flow in ledger.refused
              if band.has(slot)]
    return parts + axis(ledger, band)


# ---- the whole

def legend(ledger, y):
    """What the marks mean, with the counts of the picture."""
    came = sum(slot <= ledger.slot for slot in ledger.booked)
    parts, x = [], GAP
    for shape, words in (
            (flow_mark(0, 0, 0, 10, 9), "booked: %d" % came),
            (flow_mark(0, 0, 0, 10, 9, PALE),
             "booked, still to come: %d" % (len(ledger.booked) - came)),
            (flow_mark(0, 0, 4, 10, 5), "lent: %d" % len(ledger.lent)),
            (rect(0, 0, 10, 9, IDLE), "idle: %d" % len(ledger.idle)),
            (wedge(5, 2), "refused: %d" % sum(ledger.refused.values()))):
        parts.append("<g transform='translate(%d %d)'>%s</g>" % (
            x, y, shape))
        parts.append(text(x + 14, y + 9, words, SMALL))
        x += 28 + 7 * len(words)
    return parts


def description(ledger):
    """The counts in words."""
    return "; ".join("flow %d: %d booked, %d lent, %d refused" % (
        flow, ledger.count(ledger.booked, flow),
        ledger.count(ledger.lent, flow), ledger.refused_of(flow))
        for flow in range(ledger.flows)) + (
        "; of no flow: %d refused" % ledger.refused_of(None)
        if ledger.refused_of(None) else "") + "; idle: %d" % len(ledger.idle)


def stretch(ledger):
    """The slots of a stretch in words, and "" for the whole file."""
    if not ledger.asked and not ledger.over:
        return ""
    return "slots %d to %d" % (ledger.first, ledger.end)


def timeline(ledger, name):
    """The SVG of a file, or of a stretch."""
    height = ledger.rows * ROW + AXIS + 26
    width = max(LEAST, LABEL + slot_width(ledger) * slots_across(ledger) + GAP)
    part = stretch(ledger)
    rest = ": " + (part or "%s came up" % plural(ledger.slot, "slot"))
    parts = [heading(name, rest, width), *legend(ledger, 30)]
    top = 64
    for first in range(ledger.first, ledger.end + 1, BAND):
        parts += band_parts(ledger, ledger.plan, Band(first, ledger, top))
        top += height
    return document(width, top - 10, "%s of %s by flow" % (
        part.capitalize() or "Slots", name), description(ledger), parts)

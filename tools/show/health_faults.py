"""What is wrong with a run, and what is not wrong but to be looked at: a
sentence for each, which says what to do."""

import re

from flow_health import MISTAKES, NO_CELL
from refusals import refusal
from words import plural

BOARD = "look at the board that it leads to"


def clause(text):
    """What stands before the first colon or semicolon."""
    return re.split("[:;]", text)[0]


def first(refused):
    return "call %d in slot %d%s" % (refused.call, refused.slot,
                                     " first" if refused.calls > 1 else "")


def reason(number, rows, kind="request"):
    row = refusal(number, kind, rows)
    return "%s: %s" % (clause(row.when), clause(row.what_to_do))


def not_back(slot, more=0):
    """A cell, and how many others there are."""
    others = " (and %s of later slots)" % plural(more, "cell") if more else ""
    return "a cell of slot %d is not given back since slot %d%s" % (
        slot, slot + 1, others)


class Fault:
    """A sentence, of what sort it is, and of which flow, if of one."""

    def __init__(self, sort, flow, text, **numbers):
        self.sort = sort
        self.flow = flow
        self.text = text if flow is None else "flow %d: %s" % (flow, text)
        self.numbers = numbers

    def as_object(self):
        return dict(self.numbers, sort=self.sort, flow=self.flow,
                    says=self.text)


# ---- faults

def nothing_granted(flow):
    if flow.requests and not flow.granted and (flow.wrong or flow.within):
        yield Fault("nothing granted", flow.number,
                    "nothing is granted to it: %s refused, %s" % (
                        plural(flow.requests, "request"), ", ".join(
                            "%d with %d" % (count, number) for number, count
                            in sorted(flow.refused.items()))))


def mistakes(flow, rows):
    for (kind, number), refused in sorted(
            flow.wrong.items(), key=lambda pair: pair[1].call):
        yield Fault("made wrongly", flow.number,
                    "%s refused with %d, %s: %s" % (
                        plural(refused.calls, kind), number, first(refused),
                        reason(number, rows, kind)), number=number,
                    calls=refused.calls, call=refused.call, slot=refused.slot)


def within_share(flow, rows):
    for number, refused in sorted(flow.within.items()):
        why = reason(number, rows)
        if number == NO_CELL and refused.cell is not None \
                and refused.cell < refused.slot:
            why = "%s: %s" % (not_back(refused.cell), BOARD)
        yield Fault("refused within its share", flow.number,
                    "%s within its share refused with %d, %s: %s" % (
                        plural(refused.calls, "request"), number,
                        first(refused), why), number=number,
                    calls=refused.calls, call=refused.call, slot=refused.slot)


def cells(flow, now):
    overdue, late = flow.overdue(now), flow.returned_late()
    if overdue:
        yield Fault("overdue", flow.number, "%s: %s" % (
            not_back(overdue[0], len(overdue) - 1), BOARD), slot=overdue[0],
            since=overdue[0] + 1, cells=len(overdue))
    if late:
        slot, back = late
        yield Fault("given back late", flow.number,
                    "a cell of slot %d was given back in slot %d, more than a "
                    "window later: %s" % (slot, back, BOARD), slot=slot,
                    back=back)


def of_no_flow(run, rows):
    for number in sorted(MISTAKES & set(run.others)):
        count, (call, kind) = run.others[number], run.first_other[number]
        yield Fault("made wrongly", None, "%s of no flow refused with %d, call "
                    "%d%s: %s" % (plural(count, "call"), number, call,
                                  " first" if count > 1 else "",
                                  reason(number, rows, kind)),
                    number=number, calls=count, call=call)


def faults_of(flow, run, rows):
    yield from nothing_granted(flow)
    yield from mistakes(flow, rows)
    yield from within_share(flow, rows)
    yield from cells(flow, run.slot)


# ---- what a flow meets that asks for more than its share or cells

def held_back_of(flow):
    refused = flow.held_back
    if refused:
        yield Fault("held back", flow.number,
                    "%s past its share refused with 12, %s: %s: %s" % (
                        plural(refused.calls, "request"), first(refused),
                        not_back(refused.cell), BOARD),
                    calls=refused.calls, call=refused.call,
                    slot=refused.slot, cell=refused.cell)


def ahead_of(flow):
    refused = flow.ahead
    if refused:
        yield Fault("ahead of its cells", flow.number,
                    "%s refused with 12 before the slots of its cells were "
                    "over, %s: it asks further ahead than its cells go" % (
                        plural(refused.calls, "request"), first(refused)),
                    calls=refused.calls, call=refused.call, slot=refused.slot)

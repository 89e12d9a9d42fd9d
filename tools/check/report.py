"""What came of a comparison: the exit status, the lines, and the same as JSON
for programs."""

import json
import re

from check.booked import MISTAKES
from check.words import plural
from show import refusals

ALIKE, DIFFER, NOT_COMPARED = range(3)          # exit statuses


def known(flows):
    """Each flow that is known with its count, in order."""
    return sorted((flow, count) for flow, count in flows.items()
                  if flow is not None)


def by_flow(flows):
    """How many there are of each flow, in brackets; nothing where no flow is
    known."""
    pairs = known(flows)
    if not pairs:
        return ""
    if len(pairs) == 1 == len(flows):
        return " (flow %d)" % pairs[0][0]
    return " (%s)" % ", ".join("flow %d: %d" % pair for pair in pairs)


def clause(text):
    """What stands before the first colon or semicolon."""
    return re.split("[:;]", text)[0]


class Report:
    """A comparison and its listing, in words."""

    def __init__(self, compared, booked, frame_slots):
        self.compared = compared
        self.booked = booked
        self.frame_slots = frame_slots
        self.status = (ALIKE if compared.good() and not booked.mistakes()
                       else DIFFER)

    def verdict(self):
        if not self.compared.good():
            return "differ"
        return "refused" if self.status else self.compared.good_word

    def link_is_dead(self):
        """Nothing left at all, and something was booked."""
        return not self.compared.ends.left and any(
            flow.booked for flow in self.compared.flows.values())

    def explained(self):
        """Whether what is wrong is no flow's own: nothing left at all, or SENT
        seems to be moved by a slot or to count from 1 on."""
        return (self.link_is_dead() or self.compared.numbering.from_one()
                or self.compared.shift.first_slot() is not None)

    # ---- lines

    def lines(self):
        compared = self.compared
        yield self.first_line()
        if self.link_is_dead():
            yield "nothing left at all: look at the link, its cable and its " \
                "power, or at where SENT was taken"
        yield from compared.ends.lines()
        yield from compared.shift.lines()
        yield from compared.numbering.lines()
        for _, line in sorted([*compared.flow_lines(self.explained()),
                               *self.lines_without_grants()]):
            yield line
        yield from compared.faults.lines(self.frame_slots)
        yield from self.refused_lines()
        yield from self.to_come_lines()

    def first_line(self):
        verdict = self.verdict()
        if verdict == "differ":
            return "differ: " + self.compared.bad_words()
        if verdict == "refused":
            return "refused: %s in BOOKED; %s" % (
                plural(self.booked.mistakes(), "wrong call"),
                self.compared.good_words())
        return "%s: %s" % (verdict, self.compared.good_words())

    def without_grants(self):
        """With the file of calls: flows some of whose calls were refused, and
        to which nothing was granted."""
        flows = {flow for refused in self.booked.refused.values()
                 for flow in refused.flows if flow is not None}
        return sorted(flow for flow in flows if not self.booked.granted[flow])

    def lines_without_grants(self):
        for flow in self.without_grants():
            numbers = ["%d with %d" % (refused.flows[flow], number)
                       for number, refused in sorted(
                           self.booked.refused.items()) if refused.flows[flow]]
            yield flow, "flow %d: nothing was granted to it, %s refused" % (
                flow, ", ".join(numbers))

    def refused_lines(self):
        """A line for each number, those that say that a call is wrong with
        the reason."""
        rows = refusals.rows()
        for number, refused in sorted(self.booked.refused.items()):
            row = refusals.refusal(number, "request", rows)
            why = clause(row.when) + "; " if number in MISTAKES else ""
            yield "%s refused with %d%s, call %d%s: %s%s" % (
                plural(refused.calls, "call"), number, by_flow(refused.flows),
                refused.first, " first" if refused.calls > 1 else "",
                why, clause(row.what_to_do))

    def to_come_lines(self):
        flows = self.booked.to_come()
        if flows:
            yield "%s had not come up at the end of BOOKED%s: let it tick " \
                "on until each has" % (plural(sum(flows.values()),
                                           "granted slot"), by_flow(flows))

    # ---- for programs

    def numbers(self):
        compared, ends = self.compared, self.compared.ends
        return {
            "verdict": self.verdict(), "status": self.status,
            "booked_slots": ends.booked, "sent_slots": ends.sent,
            **compared.numbers(), "dead_link": self.link_is_dead(),
            "first_line_is_slot": compared.shift.first_slot(),
            "flows_from_1": compared.numbering.from_one(),
            "flows": [dict(compared.flow_numbers(compared.flows[number]),
                           flow=number, says=line) for number, line in
                      compared.flow_lines(self.explained())],
            "without_grants": self.without_grants(),
            "faults": compared.faults.count,
            "first_faults": [{"slot": slot, "says": text} for slot, _, text
                             in compared.faults.first],
            "refused": [{"number": number, "calls": refused.calls,
                         "first_call": refused.first,
                         "wrong": number in MISTAKES,
                         "flows": [{"flow": flow, "calls": count}
                                   for flow, count in known(refused.flows)]}
                        for number, refused
                        in sorted(self.booked.refused.items())],
            "to_come": sum(self.booked.to_come().values()),
        }

    def json(self):
        return json.dumps(self.numbers(), indent=1)

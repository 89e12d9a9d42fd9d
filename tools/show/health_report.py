"""What came of a run: the exit status, the lines, and the same as JSON for
programs."""

import json
from collections import defaultdict

from health_faults import (
    ahead_of, clause, faults_of, held_back_of, of_no_flow)
from refusals import refusal, rows
from words import plural

HEADS = ("flow", "asked", "granted", "promised", "refused", "longest wait",
         "overdue")


def row_of(cells, verdict=""):
    """A line of the table, each cell as wide as its head."""
    return "  ".join([*(str(cell).rjust(len(head))
                        for head, cell in zip(HEADS, cells)), verdict]).rstrip()


class Report:
    def __init__(self, run):
        self.run = run
        self.rows = rows()
        self.faults, self.notes = {}, []
        for flow in run.flows:
            self.look_at(flow)
        self.others = list(of_no_flow(run, self.rows))
        self.status = 1 if self.others or any(self.faults.values()) else 0

    def look_at(self, flow):
        """What held a flow back stands among its faults, by its first call,
        where it has any."""
        faults = list(faults_of(flow, self.run, self.rows))
        held_back = list(held_back_of(flow))
        self.faults[flow.number] = sorted(
            faults + held_back if faults else [],
            key=lambda fault: fault.numbers.get("call", 0))
        self.notes += [*([] if faults else held_back), *ahead_of(flow)]

    def all_faults(self):
        return [fault for faults in self.faults.values()
                for fault in faults] + self.others

    def rate(self, count):
        """Tiles a frame."""
        return count / self.run.frames()

    def refusals(self):
        """For each number whose calls were refused with it, and how many."""
        found = defaultdict(list)
        for flow in self.run.flows:
            counts = flow.refused + flow.refused_credits
            for number, count in counts.items():
                found[number].append(("flow %d" % flow.number, count))
        for number, count in self.run.others.items():
            found[number].append(("no flow", count))
        return sorted(found.items())

    # ---- lines

    def lines(self):
        yield self.first_line()
        yield ""
        yield row_of(HEADS)
        for flow in self.run.flows:
            yield self.flow_line(flow)
        for part in (self.all_faults(), self.notes):
            if part:
                yield ""
            yield from (fault.text for fault in part)
        if self.refusals():
            yield ""
        yield from map(self.refusal_line, self.refusals())

    def first_line(self):
        run = self.run
        return "%s: %s, %s in %s" % (
            "fails" if self.status else "passes", plural(run.calls, "call"),
            plural(run.slot, "slot"), plural(run.frames(), "frame"))

    def flow_line(self, flow):
        return row_of(
            (flow.number, "%.2f" % self.rate(flow.requests),
             "%.2f" % self.rate(flow.granted), flow.share,
             sum(flow.refused.values()),
             "-" if flow.wait is None else flow.wait,
             len(flow.overdue(self.run.slot))),
            "fails" if self.faults[flow.number] else "")

    def refusal_line(self, pair):
        number, whose = pair
        _, kind = self.run.first_other.get(number, (None, "request"))
        row = refusal(number, kind, self.rows)
        return "%d refused with %d (%s): %s; %s" % (
            sum(count for _, count in whose), number,
            ", ".join("%s: %d" % each for each in whose),
            clause(row.when), clause(row.what_to_do))

    # ---- for programs

    def flow_object(self, flow):
        return {
            "flow": flow.number, "passes": not self.faults[flow.number],
            "requests": flow.requests, "grants": flow.granted,
            "lent": flow.lent, "asked": self.rate(flow.requests),
            "granted": self.rate(flow.granted), "promised": flow.share,
            "refused": dict(flow.refused),
            "refused_credits": dict(flow.refused_credits),
            "longest_wait": flow.wait, "longest_wait_slot": flow.wait_slot,
            "overdue": flow.overdue(self.run.slot)}

    def json(self):
        run = self.run
        return json.dumps({
            "verdict": "fails" if self.status else "passes",
            "status": self.status, "calls": run.calls, "slots": run.slot,
            "frames": run.frames(),
            "flows": [self.flow_object(flow) for flow in run.flows],
            "of_no_flow": dict(run.others),
            "faults": [fault.as_object() for fault in self.all_faults()],
            "notes": [note.as_object() for note in self.notes]}, indent=1)

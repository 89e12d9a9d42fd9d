"""What is wrong with a plan: domeplan's answer to `faults`, in words that name
the flow, its line and the number."""

from functools import lru_cache

from plan import program
from plan.ends import first_ones
from show import refusals

# Of F, W, their product and N, in domeplan's order: the field, when it is
# refused, and what it is here.
OF_FRAME = (
    ("F", "F is not 1 to 64", "F is %d"),
    ("W", "W is not 2 to 8", "W is %d"),
    ("F x W", "the window has more than 256 positions", "there are %d"),
    ("N", "N is not 1 to 4,095", "N is %d"),
)
# Of a flow's numbers, in domeplan's order.
OF_FLOW = (
    ("share", "a flow's share is not 1 to F", "%s has share %d"),
    ("cells", "a flow's cells are 0 or above 255", "%s has %d cells"),
    ("from", "a node is above 63", "%s comes from node %d"),
    ("to", "a node is above 63", "%s goes to node %d"),
    ("from and to", "a flow's nodes are the same",
     "%s goes from node %d to %d"),
)
LOOKED_AT = 16          # flows, where there are more
SUMS = 6, 7             # faults of all flows together


class Fault:
    """A refusal's number, when it is given and what it is here, with the
    numbers of the flows that it is about, the field and its value."""

    def __init__(self, number, when, here, flows=(), field=None, value=None):
        self.number = number
        self.when, self.here = when, here
        self.flows = flows
        self.field, self.value = field, value

    def sentence(self):
        return "%s; here %s" % (self.when, self.here)

    def as_object(self, plan):
        found = {"number": self.number, "says": self.sentence()}
        if self.field:
            found.update(field=self.field, value=self.value)
        if self.flows:
            found["flows"] = list(self.flows)
            found["lines"] = [plan.flows[flow].line for flow in self.flows]
            found["names"] = [plan.flows[flow].name for flow in self.flows]
        elif plan:
            found["lines"] = [plan.line]
        return found


def on_line(line):
    return " (line %d)" % line if line else ""


def called(plan, flow, word="flow "):
    """A flow by its name, or by its number; and by its line."""
    found = plan.flows[flow]
    return "%s%s%s" % (word, found.name or flow, on_line(found.line))


class Told:
    """domeplan's triples for a plan, put into words."""

    def __init__(self, plan):
        self.plan = plan

    def fault(self, number, first, second):
        return getattr(self, "fault_%d" % number)(first, second)

    def fault_2(self, _, __):
        count = len(self.plan.flows)
        return Fault(2, "n is not 1 to 16", "n is %d" % count, (), "n", count)

    def fault_3(self, which, value):
        field, when, here = OF_FRAME[which]
        return Fault(3, when, here % value + on_line(self.plan.line), (),
                     field, value)

    def fault_4(self, flow, which):
        field, when, here = OF_FLOW[which]
        numbers = self.plan.flows[flow].numbers()
        value = [*numbers, numbers[2:]][which]
        words = value if which == len(numbers) else [value]
        return Fault(4, when, here % (called(self.plan, flow), *words),
                     (flow,), field, value)

    def fault_5(self, earlier, later):
        return Fault(
            5, refusals_page(5).when, "%s and %s" % (
                called(self.plan, earlier, "flows "),
                called(self.plan, later, "")), (earlier, later))

    def fault_6(self, total, frame_slots):
        return self.over(6, "share", total, "F is %d" % frame_slots)

    def fault_7(self, total, buffer):
        return self.over(7, "cells", total, "N is %d" % buffer)

    def over(self, number, field, total, limit):
        """A sum that is above its limit."""
        them = "they" if len(self.plan.flows) <= LOOKED_AT else (
            "those of the first %d flows" % LOOKED_AT)
        return Fault(number, refusals_page(number).when, "%s add to %d, and "
                     "%s%s" % (them, total, limit, on_line(self.plan.line)),
                     (), field, total)


@lru_cache(maxsize=None)
def refusals_page(number):
    """The row of docs/REFUSALS.md: when, and what to do about a plan."""
    return refusals.refusal(number, "plan", refusals.rows())


def of_plan(plan):
    """Each fault of a plan that domeplan refuses.  It looks at the first
    flows; of the others each is asked about alone, and with the first flow
    that has its nodes."""
    asked = program.ask_all([plan.question("faults")], program.threes)[0]
    sums = [three for three in asked if three[0] in SUMS]
    threes = [three for three in asked if three not in sums]
    try:
        return [Told(plan).fault(*three)
                for three in threes + later_ones(plan) + sums]
    except (AttributeError, IndexError):
        raise program.odd(" ".join(str(number) for three in asked
                                   for number in three)) from None


def later_ones(plan):
    """The faults of the flows that domeplan doesn't look at, flow by flow."""
    first = {}
    for number, flow in enumerate(plan.flows):
        first.setdefault((flow.source, flow.destination), number)
    later = range(LOOKED_AT, len(plan.flows))
    if not later:
        return []
    pairs = [(first[flow.source, flow.destination], number) for number, flow
             in enumerate(plan.flows[LOOKED_AT:], LOOKED_AT)]
    answers = program.ask_all(
        [plan.of_flows(group).question("faults")
         for group in [*zip(later), *pairs]], program.threes)
    alone, together = answers[:len(later)], answers[len(later):]
    found = []
    for pair, of_one, of_two in zip(pairs, alone, together):
        found += [(4, pair[1], which) for number, _, which in of_one
                  if number == 4]
        found += [(5, *pair) for number, *_ in of_two
                  if number == 5 and pair[0] < pair[1]]
    return found


# ---- told

def what_to_do(numbers, more=""):
    """A line on what to do about refusals, if there is something to say."""
    words = [refusals_page(number).what_to_do for number in
             dict.fromkeys(numbers)]
    text = "; ".join(filter(None, [*words, more]))
    return ["what to do: " + text] if text else []


def refusal_lines(what, faults):
    """The refusal of something by its first fault, the others, and what to
    do."""
    first, *others = faults
    return ["%s is refused with %d: %s" % (what, first.number,
                                           first.sentence()),
            *first_ones(["and then with %d: %s" % (
                fault.number, fault.sentence()) for fault in others]),
            *what_to_do(fault.number for fault in faults)]

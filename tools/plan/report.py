"""What came of a question: lines for people, an object for programs, and what
is said on standard error."""

from plan import table
from plan.ends import DONE, NOT_DONE, REFUSED


class Report:
    """Lines and an object, with the exit status."""

    def __init__(self, lines, numbers, errors=(), status=DONE):
        self.lines = list(lines)
        self.numbers = numbers
        self.errors = list(errors)
        self.status = status


VERDICTS = {DONE: "passes", REFUSED: "refused", NOT_DONE: "not read"}


def verdict(status, **more):
    """The beginning of each object."""
    return {"verdict": VERDICTS[status], "status": status, **more}


def refused(taken, lines=()):
    """The report on a plan that is refused."""
    plan = taken.plan
    numbers = verdict(REFUSED, refusal=taken.refusal, faults=[
        fault.as_object(plan) for fault in taken.faults])
    if plan:
        numbers["plan"] = table.object_of(plan)
    return Report(lines, numbers, taken.lines, REFUSED)

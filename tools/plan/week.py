"""A week's programme: printed, and what runs at a time."""

from plan import faults, program, times
from plan.ends import (
    DONE, REFUSED, called, first_ones, lines_object, shown)
from plan.report import Report, verdict

BAD_WEEK, SHARED = 28, 29
# Of a showing's start and end, in domeplan's order.
OF_ENTRY = ("a showing's start is not before its end",
            "a showing ends after the week, which ends at minute 10,080")
COUNT = 2                       # a fault of 28 about no showing
TOO_MANY = "the programme has more than 64 entries"
OTHER_DAY = " (an end on another day names it: sat 23:00-sun 01:00)"
NO_MINUTE = "it is not 0 to 10,079"


class Week:
    """Entries of numbers, or of a text, whose plans are checked."""

    def __init__(self, entries, text=None):
        self.entries = entries
        self.text = text
        self.called = called(text.name) if text else "the programme"
        self.faults = []

    def numbers(self, own=False):
        """Start, end and a plan's number of each: where plans are files, or
        the entry is to be told by the answer, the entry's place."""
        for place, entry in enumerate(self.entries):
            yield from (entry.start, entry.end,
                        place if own or self.text else entry.what)

    def what(self, entry):
        return shown(entry.what) if self.text else "plan %d" % entry.what

    def look(self):
        """Asks what is wrong with it."""
        self.faults = program.ask_all(
            [program.line("week-faults", self.numbers())], self.told)[0]
        if self.text:
            self.text.check_plans()

    # ---- what is wrong

    def told(self, text):
        """domeplan's triples, put into words."""
        try:
            return [self.fault(*three) for three in program.threes(text)]
        except (KeyError, IndexError):
            raise ValueError(text) from None

    def fault(self, number, first, second):
        if (number, second) == (BAD_WEEK, COUNT):
            return faults.Fault(number, TOO_MANY, "there are %d" % first)
        return {BAD_WEEK: self.bad_entry, SHARED: self.shared}[number](
            first, second)

    def place(self, number):
        """An entry by its line, or counted from 1."""
        return self.entries[number].line or number + 1

    def shared(self, first, second):
        return faults.Fault(
            SHARED, faults.refusals_page(SHARED).when, "%s %d and %d" % (
                "lines" if self.text else "entries", self.place(first),
                self.place(second)))

    def bad_entry(self, place, which):
        """The times of a text end with the week."""
        entry = self.entries[place]
        return faults.Fault(BAD_WEEK, OF_ENTRY[which], (
            "line %d is %s%s" % (entry.line, entry.span(), OTHER_DAY)
            if self.text else "entry %d is from %d to %d" % (
                place + 1, entry.start, entry.end)))

    def errors(self):
        """What is said where it is refused, or one of its plans."""
        lines = faults.refusal_lines(
            self.called, self.faults) if self.faults else []
        return lines + first_ones(self.text.lines() if self.text else [])

    def status(self):
        return max(REFUSED if self.faults else DONE,
                   self.text.status if self.text else DONE)

    def object_of(self):
        found = {"faults": [{"number": fault.number, "says": fault.sentence()}
                            for fault in self.faults]}
        if self.text:
            found["lines"] = lines_object(sorted(self.text.sentences))
        return verdict(self.status(), **found)

    # ---- printed

    def spans(self):
        """What runs, from when to when, in order of time."""
        at = 0
        for entry in sorted(self.entries, key=lambda each: each.start):
            if at < entry.start:
                yield at, entry.start, "dark"
            yield entry.start, entry.end, self.what(entry)
            at = entry.end
        if at < times.WEEK:
            yield at, times.WEEK, "dark"

    def reported(self, lines, **more):
        """A report, with lines where nothing is wrong."""
        status = self.status()
        return Report([] if status else lines, {
            **self.object_of(), **({} if status else more)}, self.errors(),
            status)

    def report(self):
        spans = [] if self.status() else list(self.spans())
        return self.reported(
            ["%s - %s %s" % (times.called(start), times.called(end), what)
             for start, end, what in spans],
            spans=[{"start": start, "end": end, "from": times.called(start),
                    "to": times.called(end), "runs": what}
                   for start, end, what in spans])

    def report_at(self, minute):
        if self.status():
            return self.reported([])
        try:
            place = program.ask(program.line("programme %d" % minute,
                                             self.numbers(own=True)), running)
        except program.Refused as refusal:
            self.called = "the minute"
            self.faults = [faults.Fault(refusal.number, NO_MINUTE,
                                        "it is %d" % minute)]
            return self.reported([])
        when = times.called(minute)
        if place is None:
            return self.reported(
                ["%s: dark %s" % (when, self.until_next(minute))],
                minute=minute, at=when, runs=None)
        if place >= len(self.entries):
            raise program.odd("plan %d" % place)
        entry = self.entries[place]
        return self.reported(
            ["%s: %s runs, %s" % (when, self.what(entry), entry.span())],
            minute=minute, at=when, runs=self.what(entry), start=entry.start,
            end=entry.end)

    def until_next(self, minute):
        """What starts next, where something does."""
        later = [entry for entry in self.entries if entry.start > minute]
        if not later:
            return "until the week ends"
        entry = min(later, key=lambda each: each.start)
        return "until %s, when %s starts" % (times.called(entry.start),
                                             self.what(entry))


def running(text):
    """The number of the plan that runs, None for dark."""
    if text == "dark":
        return None
    return program.after("plan", program.numbers(1))(text)[0]

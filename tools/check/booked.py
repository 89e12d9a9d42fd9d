"""BOOKED: a listing of domelink, read line by line.  What it books, and what
was refused."""

import re
from collections import Counter
from functools import lru_cache

from check.files import MORE, Trouble, called, lines_of, shown
from check.sent import FLOWS

LINE = re.compile(r"(C)|([GR]) ([0-9]{1,9})|(T) (-|[0-9]{1,9})")
NO_CALL = 16                    # the refusal of a record that makes no call
# Numbers that say of a call that it is wrong, and not that it comes too soon.
MISTAKES = frozenset((8, 9, 10, 13, 14, 15, NO_CALL, 24))


@lru_cache(maxsize=1024)
def parsed(line):
    """A line's letter and its number, which is None where it has none; None
    for what is no line of domelink's after the first."""
    found = LINE.fullmatch(line)
    if not found:
        return None
    letter = found[1] or found[2] or found[4]
    number = found[3] or found[5]
    if letter == "C" or number == "-":
        return letter, None
    if letter == "T" and int(number) >= FLOWS:
        return None
    return letter, int(number)


class Refused:
    """The calls that were refused with one number."""

    def __init__(self, first):
        self.first = first          # a call, counted from 1 on
        self.flows = Counter()      # all under None without a file of calls

    @property
    def calls(self):
        return sum(self.flows.values())


class Booked:
    """A listing; with its file of calls each refusal has a flow, and each
    slot that is still to come."""

    def __init__(self, name, calls=None, ahead=False):
        self.name = name
        self.calls = calls
        self.ahead = ahead          # whether the pairs may not stand in it
        self.slots = 0
        self.granted = Counter()    # by flow, all under None without calls
        self.came_up = Counter()    # slots that were booked, in the same way
        self.refused = {}           # by number
        self.due = {}               # by slot, with calls: when its tile comes

    def owners(self):
        """The flow that each slot is booked for, from slot 1 on; None where
        it is idle."""
        number = 0
        for number, line in enumerate(lines_of(self.name, "a listing"), 1):
            if number == 1:
                self.look_at_first(line)
                continue
            letter, value = parsed(line) or self.no_line(number, line)
            flow = self.calls and self.calls.flow(letter, number)
            if letter == "T":
                self.slots += 1
                self.came_up[self.calls and value] += value is not None
                yield value
            elif letter == "G":
                self.grant(value, flow)
            elif letter == "R":
                self.refuse(value, flow, number)
        self.end(number)

    def grant(self, position, flow):
        self.granted[flow] += 1
        if self.ahead and self.calls:
            slot = self.calls.slot_after(self.slots, position)
            self.due[slot] = self.calls.due(self.slots)

    def refuse(self, refusal, flow, number):
        if self.ahead and refusal == NO_CALL:
            raise Trouble(
                "line %d of %s is 'R 16', a record that is no call of "
                "domelink's: is it a lend that sends ahead? with --ahead "
                "BOOKED is the listing of the calls without the lends and "
                "credits that send ahead" % (number, called(self.name)))
        self.refused.setdefault(refusal, Refused(number - 1)).flows[flow] += 1

    def look_at_first(self, line):
        """The first line, which has to accept the plan."""
        if re.fullmatch(r"P [1-7]", line):
            raise Trouble("%s is the listing of a plan that is refused with "
                          "%s: it has no slots" % (called(self.name),
                                                   line[2:]))
        if line != "P 0":
            raise Trouble("%s is no listing of domelink: its first line is "
                          "'%s', and not 'P 0'%s" % (
                              called(self.name), shown(line), MORE))

    def no_line(self, number, line):
        more = MORE
        if self.ahead and re.fullmatch(r"L [0-9]{1,2}", line):
            more = (": a lend of allcalls; with --ahead BOOKED is the listing "
                    "of the calls without the lends and credits that send "
                    "ahead")
        raise Trouble("line %d of %s is '%s', which is no line of domelink's%s"
                      % (number, called(self.name), shown(line), more))

    def end(self, lines):
        if lines == 0:
            raise Trouble("%s is empty, and a listing begins with 'P 0'%s" % (
                called(self.name), MORE))
        if self.calls:
            self.calls.end()
        if not self.slots:
            raise Trouble("%s has no T line: no slot came up, and there is "
                          "nothing to compare" % called(self.name))

    # ---- what it comes to

    def to_come(self):
        """Granted slots that had not come up at its end, by flow."""
        return +(self.granted - self.came_up)

    def mistakes(self):
        """How many calls were refused as wrong."""
        return sum(refused.calls for number, refused in self.refused.items()
                   if number in MISTAKES)

"""One run, as its call file and its listing tell it: a list of events."""

import struct


class Event:
    """A call and its answer."""

    def __init__(self, kind, call, letter, number):
        self.kind = kind
        self.call = call            # its numbers
        self.letter = letter
        self.number = number

    def same_call(self, other):
        return (self.kind, self.call) == (other.kind, other.call)

    def lends_to(self):
        """The flow of an answered lend, or None."""
        if self.kind == "lend" and self.letter == "L":
            return int(self.number)
        return None


class Run:
    """Told of by demand3.check.tell_all."""

    def __init__(self, verdict):
        self.verdict = verdict
        self.place = 1              # line number, for messages
        self.events = []

    def fault(self, text):
        self.verdict.faults.append("line %d: %s" % (self.place, text))

    def add(self, kind, call, letter, number):
        self.events.append(Event(kind, call, letter, number))

    def request(self, record, letter, number):
        self.add("request", struct.unpack_from("<I", record, 1), letter,
                 number)

    def credit(self, record, letter, number):
        self.add("credit", struct.unpack_from("<BH", record, 1), letter,
                 number)

    def tick(self, record, letter, number):
        self.add("tick", (), letter, number)

    def lend(self, record, letter, number):
        self.add("lend", struct.unpack_from("<H", record, 1), letter, number)

    def reset(self, record, letter, number):
        self.add("reset", (), letter, number)

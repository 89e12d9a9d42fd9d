"""A call file under construction, played on a link while it is written.

The link tells what each call answered, so that later calls can follow it:
ask until refused, give back a cell that was really taken, and so on.
"""

import call_bytes
from simulator.burst import HANDLED
from simulator.calls import answer
from simulator.link import Link
from simulator.plan import read_plan
from simulator.records import DOMELINK, read_record

NO_WORDS = "burst", []


class CallFile:
    def __init__(self, draft, kinds=DOMELINK):
        """A file of a program's kinds of records."""
        plan_bytes = draft.data()
        refusal, self.plan = read_plan(plan_bytes)
        if refusal:
            raise ValueError("a good plan was meant, refusal %d" % refusal)
        self.written = [plan_bytes]         # and then each record
        self.kinds = kinds
        self.link = Link(self.plan)
        self.flows = self.plan.flows
        self.slots = self.plan.slots
        # Granted slots of each flow, in the order of the grants; how many
        # there were in all, and at the last granted reset.
        self.grants = [[] for _ in range(self.flows)]
        self.granted = [0] * self.flows
        self.at_reset = [0] * self.flows

    def data(self):
        return b"".join(self.written)

    def calls(self):
        return len(self.written) - 1

    def record(self, record):
        """Writes a record and plays it: the letter and number of its line,
        which a burst without words has not."""
        self.written.append(record)
        call = read_record(record, self.kinds)
        if call == NO_WORDS:
            return None, None
        letter, number = answer(self.link, call)
        if letter == "G":
            self.note_grant(int.from_bytes(record[1:5], "little"), number)
        return letter, number

    def note_grant(self, word, position):
        flow = word >> 20 & 63
        self.grants[flow].append(self.link.slot_of(position))
        self.granted[flow] += 1

    def last_bytes(self, rest):
        """Writes bytes that are no whole record, at the file's end."""
        self.written.append(rest)

    # ---- well-formed calls

    def ask(self, flow, departure=None, quantum=None):
        """A request, with the flow's next quantum and for a tile that has come
        where nothing else is named.  The slot, or None."""
        letter, _ = self.record(call_bytes.request_of(
            self.word(flow, departure, quantum)))
        return self.grants[flow][-1] if letter == "G" else None

    def give(self, flow, slot):
        """A credit dated a slot.  Whether it was taken."""
        return self.record(
            call_bytes.credit(flow, slot % self.slots))[0] == "C"

    def tick(self):
        """The flow that the slot came up for, or None."""
        number = self.record(call_bytes.TICK)[1]
        return None if number == "-" else number

    def lend(self, mask):
        """The flow that the current slot is lent to, or None."""
        letter, number = self.record(call_bytes.lend(mask))
        return number if letter == "L" else None

    def reset(self):
        """Whether it was granted."""
        granted = self.record(call_bytes.RESET)[0] == "Z"
        if granted:
            self.at_reset = list(self.granted)
        return granted

    def word(self, flow, departure=None, quantum=None):
        """A well-formed word, with the flow's next quantum and for a tile that
        has come where nothing else is named."""
        if departure is None:
            departure = self.link.ticks % self.slots
        if quantum is None:
            quantum = self.quantum(flow)
        return call_bytes.word(self.plan.destination(flow), flow, quantum,
                               departure)

    def burst(self, makers):
        """A burst of any words; each is made by a function when those before
        it have been answered."""
        words = []
        for place, make in enumerate(makers):
            words.append(make())
            if place < HANDLED:
                letter, number = answer(self.link, ("request", words[-1]))
                if letter == "G":
                    self.note_grant(words[-1], number)
        self.written.append(call_bytes.burst(words))

    # ---- where things stand

    def quantum(self, flow):
        """The number of the flow's next quantum."""
        return self.granted[flow] % 1024

    def now(self):
        return self.link.ticks

    def last_slot(self):
        """The last slot of the window."""
        return (self.link.newest_frame() + 1) * self.plan.frame_slots - 1

    def later_slot(self, dice):
        """Some slot after the current one, in the window."""
        return dice.between(self.now() + 1, self.last_slot())

    def date(self, slot):
        """The slot, or the nearest to it that is to come in the window."""
        return min(max(slot, self.now() + 1), self.last_slot())

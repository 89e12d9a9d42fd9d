"""The grants, credits, lends, ticks and resets that a listing tells of, and
the bullets of demand 3 counted over them.

The most and the least count begin afresh with each granted reset; all else is
counted over the whole list, the quantum numbers too."""

import struct
from collections import Counter

from demand3 import (
    credit_ways, departure_ways, lend_ways, number_ways, reset_ways)
from demand3.delays import Asked, Delays
from demand3.turns import Turns


class Verdict:
    """What was found: faults as text; grants and taken credits seen; how the
    credits, the lends, the resets, and the departures and the numbers of
    well-formed words ended, and whose turn it was at a lend; how often a
    request had to be granted promptly or soon, and was; per flow the largest
    k at which the least count was put to the test, from the beginning or from
    a granted reset on; and the largest of the latter."""

    def __init__(self):
        self.faults = []
        self.grants = 0
        self.credits = 0
        self.given_back = Counter()
        self.lends = Counter()
        self.turns = Counter()
        self.resets = Counter()
        self.departures = Counter()
        self.numbers = Counter()
        self.delays = Counter()
        self.least = {}
        self.afresh = -1

    def largest_k(self):
        return max(self.least.values(), default=-1)


class History:
    """What the listing of an accepted plan tells, call by call."""

    def __init__(self, data, verdict):
        (length, self.flows, _, self.frame_slots,
         self.window_frames, _) = struct.unpack_from("<6H", data)
        self.total = self.frame_slots * self.window_frames
        entries = list(struct.iter_unpack("4B", data[12:length]))
        self.share = [entry[0] for entry in entries]
        self.cells = [entry[1] for entry in entries]
        self.destination = [entry[3] for entry in entries]
        self.now = 0                        # the current slot
        self.owner = {}                     # granted slot -> flow
        self.lent = {}                      # lent slot -> flow
        self.held = [0] * self.flows        # held at the current slot
        self.granted = [0] * self.flows     # granted slots in the whole list
        # Later slot -> grants less credits of that slot, for each flow.
        self.change = [{} for _ in entries]
        self.turns = Turns(self.flows)      # at lends
        self.delays = Delays(self.flows)    # of requests
        self.renewed = None                 # the slot of the last reset
        self.count_afresh()
        self.verdict = verdict
        self.place = 1                      # line number, for messages

    def count_afresh(self):
        """What counts from here on for the most and the least."""
        self.origin = self.frame()          # the frame that is head
        self.in_frame = {}                  # (flow, frame) -> granted slots
        self.count = [0] * self.flows       # granted slots in all
        # Frames from the origin to asked - 1 have each seen a refusal.
        self.asked = [self.origin] * self.flows
        # Never full when it asked, each of its tiles had come, and each of
        # its words had the expected number.
        self.ready = [True] * self.flows

    def frame(self):
        return self.now // self.frame_slots

    def changes(self):
        """k, the frame changes that count."""
        return self.frame() - self.origin

    def fault(self, text):
        self.verdict.faults.append("line %d: %s" % (self.place, text))

    def slot_after_now(self, position):
        """Where this position comes next."""
        return self.now + 1 + (position - self.now - 1) % self.total

    def has_come(self, departure):
        """Whether the position was current in this frame, or is."""
        last = self.now - (self.now - departure) % self.total
        return last >= self.frame() * self.frame_slots

    def expected(self, flow):
        """The number of the flow's next quantum, no reset counting."""
        return self.granted[flow] % 1024

    def taken(self):
        """Whether the current slot has an owner."""
        return self.now in self.owner or self.now in self.lent

    def levels(self, flow):
        """What the flow holds, slot by slot where it changes, from now on."""
        level = self.held[flow]
        yield self.now, level
        change = self.change[flow]
        for slot in sorted(change):
            level += change[slot]
            yield slot, level

    def move(self, flow, slot, step):
        self.change[flow][slot] = self.change[flow].get(slot, 0) + step
        self.check_levels(flow)

    # ---- the bullets of the claim, one by one

    def check_levels(self, flow):
        """Between 0 and its cells at every slot, after any call."""
        for slot, level in self.levels(flow):
            if not 0 <= level <= self.cells[flow]:
                self.fault("flow %d holds %d at slot %d" % (flow, level, slot))
                return

    def check_owner(self, flow, slot, position):
        """A slot has one owner, and lies less than T after the current."""
        if position >= self.total:
            self.fault("granted position %d is not below T" % position)
        if slot >= self.now + self.total:
            self.fault("granted slot %d is not below t + T" % slot)
        if slot in self.owner:
            self.fault("slot %d granted to %d and to %d"
                       % (slot, self.owner[slot], flow))

    def check_departure(self, slot, departure):
        """A tile that is still to come leaves after the slot it comes in."""
        if self.has_come(departure):
            return
        comes = self.slot_after_now(departure)
        if slot <= comes:
            self.fault("slot %d is granted for a tile that comes in slot %d"
                       % (slot, comes))

    def check_number(self, flow, quantum):
        """The words that a flow is granted are numbered in order."""
        if quantum != self.expected(flow):
            self.fault("flow %d is granted number %d, where %d is due"
                       % (flow, quantum, self.expected(flow)))

    def check_lent(self, flow, mask):
        """A lent slot has no other owner, and its flow is in the mask."""
        if not mask >> flow & 1:
            self.fault("lent to %d, which is not in mask %#x" % (flow, mask))
        if self.now in self.owner:
            self.fault("slot %d granted to %d and lent to %d"
                       % (self.now, self.owner[self.now], flow))
        if self.now in self.lent:
            self.fault("slot %d lent to %d and to %d"
                       % (self.now, self.lent[self.now], flow))

    def waiting(self, mask):
        """The flows of the mask that can take the current slot."""
        return [flow for flow in range(self.flows) if mask >> flow & 1
                and max(level for _, level in self.levels(flow))
                < self.cells[flow]]

    def check_turn(self, flow, mask):
        """No flow is lent to again before one that waits (rule 21.10)."""
        waiting = self.waiting(mask)
        self.verdict.turns.update(self.turns.ways(flow, mask))
        for other in self.turns.lent(flow, waiting):
            self.fault("lent to %d again before %d, which waits"
                       % (flow, other))

    def check_most(self, flow, slot):
        """At most the share in a frame, and (W + k) times it in all."""
        key = flow, slot // self.frame_slots
        self.in_frame[key] = self.in_frame.get(key, 0) + 1
        if self.in_frame[key] > self.share[flow]:
            self.fault("flow %d has more than its share in frame %d" % key)
        self.count[flow] += 1
        most = (self.window_frames + self.changes()) * self.share[flow]
        if self.count[flow] > most:
            self.fault("flow %d has %d grants, above the most of %d"
                       % (flow, self.count[flow], most))

    def check_least(self, flow):
        """At least (W - 1 + k) times the share, for a stream that was refused
        in each frame up to this one, never asked while full, named tiles
        that had come, and numbered its words as expected."""
        if not self.ready[flow] or self.asked[flow] <= self.frame():
            return
        k = self.changes()
        self.verdict.least[flow] = max(k, self.verdict.least.get(flow, k))
        if self.renewed is not None:
            self.verdict.afresh = max(k, self.verdict.afresh)
        least = (self.window_frames - 1 + k) * self.share[flow]
        if self.count[flow] < least:
            self.fault("flow %d has %d grants, below the least of %d"
                       % (flow, self.count[flow], least))

    def check_delay(self, asked, letter, number):
        """Prompt and soon (rules 22.2 to 22.5)."""
        slot = self.slot_after_now(int(number)) if letter == "G" else None
        self.verdict.delays.update(
            self.delays.take(self, asked, slot, number))

    # ---- the calls, with what the listing says of them

    def well_formed(self, word):
        flow = word >> 20 & 63
        return (flow < self.flows and word >> 26 == self.destination[flow]
                and word & 1023 < self.total)

    def note_asking(self, flow, quantum, departure):
        """The least count's premise on each request, looked at before it is
        answered: room, a tile that has come, and the expected number."""
        if self.ready[flow]:
            full = max(level for _, level in self.levels(flow))
            self.ready[flow] = (full < self.cells[flow]
                                and self.has_come(departure)
                                and quantum == self.expected(flow))

    def note_refused(self, flow):
        if self.asked[flow] == self.frame():
            self.asked[flow] += 1
            self.check_least(flow)

    def note_granted(self, flow, quantum, departure, position):
        if flow >= self.flows:
            self.fault("a grant to flow %d, which the plan has not" % flow)
            return
        slot = self.slot_after_now(position)
        self.verdict.grants += 1
        self.check_owner(flow, slot, position)
        self.check_departure(slot, departure)
        self.check_number(flow, quantum)
        self.check_most(flow, slot)
        self.granted[flow] += 1
        self.owner[slot] = flow
        self.move(flow, slot, 1)

    def request(self, record, letter, number):
        word = struct.unpack_from("<I", record, 1)[0]
        flow, quantum = word >> 20 & 63, word >> 10 & 1023
        departure = word & 1023
        if self.well_formed(word):
            self.verdict.departures[
                departure_ways.way(self, departure, letter, number)] += 1
            self.verdict.numbers[
                number_ways.way(self, flow, quantum, letter, number)] += 1
            self.note_asking(flow, quantum, departure)
            self.check_delay(Asked(self, flow, quantum, departure),
                             letter, number)
            if letter == "R":
                self.note_refused(flow)
        if letter == "G":
            self.note_granted(flow, quantum, departure, int(number))

    def check_credit(self, flow, position, letter):
        """A credit is taken exactly if a cell is held (rule 22.12)."""
        way = credit_ways.way(self, flow, position)
        self.verdict.given_back[way] += 1
        if letter != "C" and way in credit_ways.TAKEN:
            self.fault("the credit of flow %d at %d is refused, though a cell "
                       "is held" % (flow, position))
        if letter == "C" and way not in credit_ways.TAKEN:
            self.fault("the credit of flow %d at %d is taken, though no cell "
                       "is held" % (flow, position))

    def credit(self, record, letter, number):
        flow, position = struct.unpack_from("<BH", record, 1)
        self.check_credit(flow, position, letter)
        if letter != "C":
            return
        if flow >= self.flows or position >= self.total:
            self.fault("a taken credit of flow %d at %d" % (flow, position))
            return
        self.verdict.credits += 1
        self.move(flow, self.slot_after_now(position), -1)

    def check_answered(self, mask, letter):
        """A lend is answered with a flow exactly if some flow of the mask can
        take the slot (rule 22.14)."""
        able = not mask >> self.flows and not self.taken() and (
            self.waiting(mask))
        if letter != "L" and able:
            self.fault("the lend of mask %#x is refused, though flow %d can "
                       "take the slot" % (mask, able[0]))
        if letter == "L" and not able:
            self.fault("the lend of mask %#x is answered, though no flow can "
                       "take the slot" % mask)

    def check_granted(self, letter):
        """A reset is granted exactly if no slot to come is booked and nothing
        is held from now on (rule 22.14)."""
        rests = max(self.owner, default=0) <= self.now and not any(
            level for flow in range(self.flows)
            for _, level in self.levels(flow))
        if rests and letter != "Z":
            self.fault("the reset is refused, though all is at rest")
        if not rests and letter == "Z":
            self.fault("the reset is granted, though not all is at rest")

    def lend(self, record, letter, number):
        """A lent slot counts in what is held, and in no count of grants."""
        mask = struct.unpack_from("<H", record, 1)[0]
        self.verdict.lends[
            lend_ways.way(self, mask, letter, number)] += 1
        self.check_answered(mask, letter)
        if letter != "L":
            return
        flow = int(number)
        if flow >= self.flows:
            self.fault("a lend to flow %d, which the plan has not" % flow)
            return
        self.check_lent(flow, mask)
        self.check_turn(flow, mask)
        self.lent[self.now] = flow
        self.held[flow] += 1
        self.check_levels(flow)

    def reset(self, record, letter, number):
        """Counts begin afresh; owners, and what is held, stay."""
        self.verdict.resets[reset_ways.way(self, letter, number)] += 1
        self.check_granted(letter)
        if letter == "Z":
            self.renewed = self.now
            self.turns.begin()
            self.delays.begin()
            self.count_afresh()

    def tick(self, record, letter, number):
        """A slot comes up for its owner, or idle if it has none."""
        self.now += 1
        expected = str(self.owner.get(self.now, "-"))
        if number != expected:
            self.fault("slot %d comes up for %s, granted to %s"
                       % (self.now, number, expected))
        for flow in range(self.flows):
            self.held[flow] += self.change[flow].pop(self.now, 0)

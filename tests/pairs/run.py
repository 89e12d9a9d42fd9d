"""One run of a pair, as its call file and its listing tell of one flow.

Counted by rules 21.3 and 21.4: slots and frames without end, and what the flow
holds from its grants, its lent slots and its taken credits.  Nothing is known
of the link, and of other flows nothing is kept.
"""

import struct

# The premises of rule 21.11 on each run by itself.
NO_11, FULL, TO_COME, NUMBER, RESET = PREMISES = (
    "not refused with 11 in a frame", "holds all of its cells",
    "a tile that has not come", "another number", "a reset")

NUMBER_BITS = 1023 << 10        # of a word, which may differ in the two runs


class Step:
    """A tick, or a call of the flow."""

    def __init__(self, call, answer, run):
        self.call = call            # what has to be the same in both runs
        self.answer = answer        # the letter and the number of its line
        self.now = run.now          # the current slot
        self.slot = None            # the one that was granted
        self.broken = None          # the premise that was broken first
        self.quantum = None         # the number of a well-formed word

    def kind(self):
        return self.call[0]

    def granted(self):
        return self.answer[0] == "G"


class Run:
    def __init__(self, data, flow, verdict, left_out=()):
        _, _, _, self.frame_slots, window_frames, _ = struct.unpack_from(
            "<6H", data)
        self.total = self.frame_slots * window_frames
        _, self.cells, _, self.destination = data[12 + 4 * flow:][:4]
        self.flow = flow
        self.now = 0                    # the current slot
        self.granted = 0                # slots, in the whole list
        self.held = 0                   # at the current slot
        self.change = {}                # later slot -> grants less credits
        self.lent = set()               # slots
        self.asked = False              # refused with 11 in this frame
        self.broken = None              # the premise that was broken first
        self.left_out = left_out        # premises that are not looked at
        self.steps = []
        self.verdict = verdict
        self.place = 1                  # line number, for messages

    def fault(self, text):
        self.verdict.faults.append("line %d: %s" % (self.place, text))

    def slot_after_now(self, position):
        return self.now + 1 + (position - self.now - 1) % self.total

    def most_held(self):
        """In any slot from the current one on."""
        level = most = self.held
        for slot in sorted(self.change):
            level += self.change[slot]
            most = max(most, level)
        return most

    def has_come(self, departure):
        """It was the position of a slot of this frame up to the current."""
        first = self.now - self.now % self.frame_slots
        return any(slot % self.total == departure
                   for slot in range(first, self.now + 1))

    def well_formed(self, word):
        return (word >> 26 == self.destination
                and word & 1023 < self.total)

    def must_hold(self, premise, holds):
        if not (holds or self.broken or premise in self.left_out):
            self.broken = premise

    def add_step(self, call, letter, number):
        step = Step(call, (letter, number), self)
        self.steps.append(step)
        return step

    # ---- the calls, with what the listing says of them

    def request(self, record, letter, number):
        word = struct.unpack_from("<I", record, 1)[0]
        if word >> 20 & 63 != self.flow:
            return
        step = self.add_step(("request", word & ~NUMBER_BITS), letter, number)
        if self.well_formed(word):
            step.quantum = word >> 10 & 1023
            self.must_hold(FULL, self.most_held() < self.cells)
            self.must_hold(TO_COME, self.has_come(word & 1023))
            self.must_hold(NUMBER, step.quantum == self.granted % 1024)
        step.broken = self.broken
        if letter == "G":
            step.slot = self.slot_after_now(int(number))
            self.granted += 1
            self.move(step.slot, 1)
        elif number == "11":
            self.asked = True

    def credit(self, record, letter, number):
        flow, position = struct.unpack_from("<BH", record, 1)
        if flow != self.flow:
            return
        step = self.add_step(("credit", position), letter, number)
        step.broken = self.broken
        if letter == "C":
            self.move(self.slot_after_now(position), -1)

    def move(self, slot, change):
        self.change[slot] = self.change.get(slot, 0) + change

    def tick(self, record, letter, number):
        step = self.add_step(("tick",), letter, number)
        self.now += 1
        self.held += self.change.pop(self.now, 0)
        if self.now % self.frame_slots == 0:
            self.must_hold(NO_11, self.asked)
            self.asked = False
        step.broken = self.broken

    def lend(self, record, letter, number):
        if letter == "L" and int(number) == self.flow:
            self.lent.add(self.now)
            self.held += 1

    def reset(self, record, letter, number):
        self.must_hold(RESET, False)

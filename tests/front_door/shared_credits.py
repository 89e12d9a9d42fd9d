"""One link by the published rule: all flows share one count of free places,
and condition (1) guards each frame.  As in its appendix, slots and frames are
numbered on without end, and all places are free before frame 0."""

from collections import Counter


class SharedCredits:
    def __init__(self, frame_slots, window_frames, buffer, shares):
        self.frame_slots = frame_slots
        self.window_frames = window_frames
        self.buffer = buffer
        self.shares = shares
        self.now = 0                            # the current slot
        self.booked = []                        # slots
        self.credited = []                      # slots
        self.yielded = Counter()                # slots, by frame
        self.frame = [0] * len(shares)          # each flow's injection frame
        self.left = list(shares)                # and its remainder

    def free(self, slot):
        """The free places at a slot."""
        return (self.buffer - sum(at <= slot for at in self.booked)
                + sum(at <= slot for at in self.credited))

    def is_open(self, frame):
        """Condition (1)."""
        before = frame * self.frame_slots - 1
        return self.frame_slots - self.yielded[frame] <= self.free(before)

    def valid(self, frame):
        """The valid slots of a frame, earliest first."""
        first = frame * self.frame_slots
        return [slot for slot in range(first, first + self.frame_slots)
                if slot > self.now and slot not in self.booked
                and self.free(slot) > 0]

    def ask(self, flow):
        """The slot that is booked, or None."""
        newest = self.now // self.frame_slots + self.window_frames - 1
        while True:
            frame = self.frame[flow]
            if self.left[flow] and self.is_open(frame) and self.valid(frame):
                slot = self.valid(frame)[0]
                self.booked.append(slot)
                self.left[flow] -= 1
                return slot
            if frame == newest:
                return None
            self.yielded[frame] += self.left[flow]
            self.enter(flow, frame + 1)

    def enter(self, flow, frame):
        self.frame[flow] = frame
        self.left[flow] = self.shares[flow]

    def credit(self, slot):
        self.credited.append(slot)

    def tick(self):
        self.now += 1
        head = self.now // self.frame_slots
        for flow, frame in enumerate(self.frame):
            if frame < head:
                self.enter(flow, head)

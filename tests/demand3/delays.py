"""Prompt and soon, told from calls and answers alone: rules 22.2 to 22.5.

A flow's grants are counted since the last granted reset, by the frame in which
they were made and by the frame in which their tiles were due.
"""

from collections import Counter

PROMPT = ("prompt: a tile that has come", "prompt: a tile to come",
          "prompt: with room in the newest frame, and not before it")
SOON = ("soon: a tile that has come, in its frame",
        "soon: a tile that has come, in the next",
        "soon: a tile to come, in its frame",
        "soon: a tile to come, in the next",
        "soon: refused, the share being due already")
LATEST = "soon: 2F - 1 slots after it was due"      # one of the above too
WAYS = PROMPT + SOON + (LATEST,)


class Asked:
    """A request as it stands before its answer."""

    def __init__(self, history, flow, quantum, departure):
        self.flow = flow
        self.come = history.has_come(departure)
        self.slot = (history.now if self.come
                     else history.slot_after_now(departure))
        self.frame = self.slot // history.frame_slots
        newest = history.frame() + history.window_frames - 1
        self.fits = (quantum == history.expected(flow)
                     and self.frame < newest
                     and self.has_room(history, newest))
        self.timely = self.fits and self.has_room(history, self.frame + 1)

    def has_room(self, history, frame):
        """Fewer than its cells in every slot from this frame's first on."""
        first = frame * history.frame_slots
        before = 0
        for slot, level in history.levels(self.flow):
            if slot > first and before >= history.cells[self.flow]:
                return False
            before = level
        return before < history.cells[self.flow]


class Delays:
    """What counts since the last granted reset."""

    def __init__(self, flows):
        self.flows = flows
        self.begin()

    def begin(self):
        """A fresh link, or a granted reset."""
        self.made = Counter()           # grants, by flow and frame
        self.due = Counter()            # the same by the frame of the tile
        self.last_due = [0] * self.flows
        self.modest = [True] * self.flows

    def take(self, history, asked, slot, refusal):
        """A well-formed request and the slot that it is granted, or None and
        its refusal.  The ways that it went; faults are told."""
        ways = self.prompt(history, asked, slot, refusal)
        ways += self.soon(history, asked, slot, refusal)
        if slot is not None:
            self.made[asked.flow, history.frame()] += 1
            self.due[asked.flow, asked.frame] += 1
            self.last_due[asked.flow] = max(self.last_due[asked.flow],
                                            asked.frame)
        return ways

    def prompt(self, history, asked, slot, refusal):
        share = history.share[asked.flow]
        if not asked.fits or self.made[asked.flow, history.frame()] >= share:
            return []
        if slot is None:
            history.fault("flow %d is refused with %s, though it is prompt"
                          % (asked.flow, refusal))
        if not asked.timely:
            return [PROMPT[2]]
        return [PROMPT[0 if asked.come else 1]]

    def soon(self, history, asked, slot, refusal):
        """Of a flow that is modest, this request with it."""
        flow = asked.flow
        due = self.due[flow, asked.frame] + (slot is not None)
        self.modest[flow] &= (asked.timely
                              and asked.frame >= self.last_due[flow]
                              and due <= history.share[flow])
        if not self.modest[flow]:
            return []
        if slot is None:
            return self.soon_refused(history, asked, due, refusal)
        return self.soon_granted(history, asked, slot)

    def soon_refused(self, history, asked, due, refusal):
        if due < history.share[asked.flow]:
            history.fault("flow %d is refused with %s, though it is modest"
                          % (asked.flow, refusal))
        return [SOON[4]]

    def soon_granted(self, history, asked, slot):
        late = slot // history.frame_slots - asked.frame
        if late > 1 or slot >= asked.slot + 2 * history.frame_slots:
            history.fault("slot %d is granted %d frames after the tile of "
                          "slot %d is due, though flow %d is modest"
                          % (slot, late, asked.slot, asked.flow))
        latest = slot == asked.slot + 2 * history.frame_slots - 1
        way = SOON[(0 if asked.come else 2) + (late > 0)]
        return [way, LATEST] if latest else [way]

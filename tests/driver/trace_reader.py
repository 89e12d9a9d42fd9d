"""A window that is kept by the lines of a trace alone (rule 26.10), held
against what each line tells of a flow."""

NOBODY = 16
ASKS, CREDITS, LENDS = "GB", "C", "L"   # letters of answers that move holdings
CALL, FLOW_PART = slice(2, 7), slice(10, 17)


class Kept:
    """Owners and holdings by slot, numbered on without end."""

    def __init__(self, frame, frames, flows):
        self.frame = frame
        self.ticks = 0
        self.window = range(frame * frames)
        self.owner = {}
        self.held = [dict.fromkeys(self.window, 0) for _ in range(flows)]

    def move(self, flow, slot, by):
        for each in self.window:
            if slot <= each:
                self.held[flow][each] += by

    def tick(self, change):
        self.ticks += 1
        if change:
            self.window = range(self.window.start + self.frame,
                                self.window.stop + self.frame)

    def go_on(self, flow, last):
        """Rule 26.10: what a flow holds in the slots that are new."""
        held = self.held[flow]
        self.held[flow] = {slot: held.get(slot, last) for slot in self.window}


def change(kept, letter, numbers):
    """Rule 26.10: what a line changes."""
    refused, value, (_, flow, *_) = numbers[0], numbers[1], numbers[CALL]
    if letter == "T":
        kept.tick(numbers[CALL][1])
    elif letter == "Z":
        kept.owner.clear()
    elif letter == "F":
        kept.go_on(numbers[0], numbers[3])
    elif letter == LENDS:
        kept.move(value, kept.ticks, 1)
    elif letter in ASKS + CREDITS and not refused:
        slot = kept.ticks + numbers[FLOW_PART][3]
        kept.move(flow, slot, -1 if letter == CREDITS else 1)
        if letter in ASKS:
            kept.owner[slot] = flow


def told_wrong(kept, letter, numbers):
    """Where a line tells another owner or holding than is kept."""
    part = numbers[FLOW_PART]
    if len(part) < 7:
        return None
    flow = numbers[1] if letter == LENDS else numbers[CALL][1]
    slot, held = kept.ticks + part[3], kept.held[flow]
    right = [kept.owner.get(slot, NOBODY), held[slot],
             held[kept.window.stop - 1]]
    return part[4:] != right and "%s is told, %s is kept" % (part[4:], right)


def window_trouble(lines):
    """The first line that does not fit the window kept so far, or None."""
    if lines[0].split()[1] != "0":
        return None
    frame, frames, _, flows = map(int, lines[0].split()[2:])
    kept = Kept(frame, frames, flows)
    for line in lines[1:]:
        letter, *words = line.split()
        if letter in "EWX":
            continue
        numbers = list(map(int, words))
        change(kept, letter, numbers + [0] * (7 - len(numbers)))
        wrong = told_wrong(kept, letter, numbers)
        if wrong:
            return "%s: %s" % (line, wrong)
    return None

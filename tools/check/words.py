"""Words that both ways to compare have in common, and the faults that are
told one by one."""

from bisect import insort

SHOWN = 20                      # faults that are told one by one


def plural(count, name):
    return "%d %s" % (count, name if count == 1 else name + "s")


def place(slot, frame_slots):
    """A slot by its number, and by its frame where F is known."""
    if frame_slots is None:
        return "slot %d" % slot
    return "slot %d (frame %d, its slot %d)" % (
        slot, slot // frame_slots, slot % frame_slots)


class Faults:
    """The first faults in the order of their slots, and how many there are.
    They may be found in another order."""

    def __init__(self):
        self.count = 0
        self.first = []             # a slot, the how-manieth, a sentence

    def add(self, slot, text):
        self.count += 1
        if len(self.first) < SHOWN or slot < self.first[-1][0]:
            insort(self.first, (slot, self.count, text))
            del self.first[SHOWN:]

    def lines(self, frame_slots):
        for slot, _, text in self.first:
            yield "%s: %s" % (place(slot, frame_slots), text)
        if self.count > len(self.first):
            yield "and %d more" % (self.count - len(self.first))

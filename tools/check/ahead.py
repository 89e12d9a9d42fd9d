"""Where a tile may leave before its booked slot.

A stream that leaves in its own slot sends the tile of that slot.  One that
leaves in a slot that nobody booked sends its first tile that waits, in the
order of its slots.  A slot is booked less than a window before it comes up, so
that BOOKED is read so far ahead of SENT and no further; a tile that is more
than 256 slots late is taken never to leave.  With a file of calls it is known
in which slot a tile is due, and it may leave from the next one on (rule 24.2).
"""

from collections import deque

from check.ends import ENDED, Ends, Numbering, Shift
from check.flows import Flow, takers
from check.words import Faults, plural

WINDOW = 256                    # the most positions of a window
LATEST = 256                    # slots after its own in which a tile may leave


def read_ahead(owners, window, note):
    """The owners, each noted while a slot is current from which on it can be
    booked."""
    noted = deque()
    for slot, owner in enumerate(owners, 1):
        note(slot, owner)
        noted.append(owner)
        if len(noted) >= window:
            yield noted.popleft()
    yield from noted


class Stream(Flow):
    """The tiles of a flow, each by its booked slot, and the slots gained."""

    wrongly = "wrongly"

    def __init__(self):
        super().__init__()
        self.waiting = deque()      # slots of tiles that have not left
        self.early = {}             # slot to come of a tile -> where it left
        self.lost = 0               # tiles that never left
        self.ahead = 0              # tiles that left before their slots
        self.gained = self.most = 0     # slots

    @property
    def never(self):
        return self.lost

    def time_words(self):
        return "time"

    def never_in_its_own(self):
        """Not told: a tile that is late is no sign of another's slots."""
        return False

    def in_time_by(self, slots):
        self.in_time += 1
        self.ahead += slots > 0
        self.gained += slots
        self.most = max(self.most, slots)

    def lose(self, tile):
        """A tile has never left."""
        self.booked += 1
        self.lost += 1
        self.missed += tile > self.last


class Sending:
    """What left, slot by slot, against what was booked."""

    good_word = "ahead"

    def __init__(self, window=WINDOW, due=None):
        self.window = window
        self.due = {} if due is None else due   # by a tile's slot, if known
        self.ends = Ends()
        self.shift = Shift()
        self.numbering = Numbering()
        self.faults = Faults()
        self.flows = {}

    def stream(self, number):
        if number not in self.flows:
            self.flows[number] = Stream()
        return self.flows[number]

    def reads(self, owners):
        """The owners, read so far ahead as slots can be booked."""
        return read_ahead(owners, self.window, self.book)

    # ---- slot by slot

    def book(self, slot, owner):
        """A slot is read in BOOKED, up to a window before it is current."""
        if owner is None:
            return
        stream = self.stream(owner)
        self.give_up(owner, stream, slot - self.window + 1)
        stream.waiting.append(slot)

    def give_up(self, number, stream, slot):
        """In a slot no tile leaves any more that is too late."""
        while stream.waiting and stream.waiting[0] < slot - LATEST:
            self.lose(number, stream, stream.waiting.popleft())

    def lose(self, number, stream, tile):
        """A tile has not left, unless SENT ends before its slot."""
        if tile <= self.ends.sent:
            stream.lose(tile)
            self.faults.add(tile, "flow %d's tile did not leave at all"
                            % number)

    def add(self, slot, owner, flow):
        self.ends.add(owner, flow)
        self.shift.add(owner, flow)
        self.numbering.add(owner, flow)
        if ENDED in (owner, flow):
            return
        if flow is not None:
            self.leave(slot, owner, flow)
            self.stream(flow).leaves(slot)
        if owner is not None:
            self.stream(owner).early.pop(slot, None)
            self.due.pop(slot, None)

    def leave(self, slot, owner, flow):
        stream = self.stream(flow)
        if flow != owner:
            self.leave_elsewhere(slot, owner, flow, stream)
        elif slot in stream.early:
            stream.elsewhere += 1
            self.faults.add(slot, "flow %d left, and its tile of this slot "
                            "had left in slot %d: it left twice, or another "
                            "in its place" % (flow, stream.early[slot]))
        else:
            stream.waiting.remove(slot)
            stream.booked += 1
            stream.in_time_by(0)

    def leave_elsewhere(self, slot, owner, flow, stream):
        """A flow leaves in a slot that it has not booked."""
        self.give_up(flow, stream, slot)
        tile = stream.waiting.popleft() if stream.waiting else None
        stream.booked += tile is not None
        if tile is not None and tile > slot:
            stream.early[tile] = slot
        due = self.due.get(tile, 0)
        if tile is not None and owner is None and due < slot <= tile:
            stream.in_time_by(tile - slot)
            return
        stream.elsewhere += 1
        stream.owners[owner] += 1
        self.faults.add(slot, wrong_leaving(slot, owner, flow, tile, due))

    def end(self):
        """What waits at the end has not left at all."""
        for number, stream in self.flows.items():
            for tile in stream.waiting:
                self.lose(number, stream, tile)

    # ---- what came of it

    def good(self):
        return (not self.faults.count and self.ends.booked == self.ends.sent
                and self.shift.first_slot() is None)

    def sums(self):
        """Tiles, those in time, those ahead, and the slots gained."""
        flows = self.flows.values()
        return [sum(getattr(flow, name) for flow in flows)
                for name in ("booked", "in_time", "ahead", "gained")]

    def good_words(self):
        tiles, _, ahead, gained = self.sums()
        return "%s left at or before %s, %d ahead; %s gained" % (
            plural(tiles, "tile"), "its slot" if tiles == 1 else "their slots",
            ahead, plural(gained, "slot"))

    def reasons(self):
        """Why it is not good, in a few words each."""
        if self.faults.count:
            yield plural(self.faults.count, "fault")
        if self.ends.sent != self.ends.booked:
            yield "%s ends early" % (
                "SENT" if self.ends.sent < self.ends.booked else "BOOKED")
        first = self.shift.first_slot()
        if first is not None:
            yield "SENT seems to begin a slot %s" % (
                "late" if first else "early")

    def bad_words(self):
        tiles, in_time, _, _ = self.sums()
        return "%s; %d of %s left at or before %s" % (
            ", ".join(self.reasons()), in_time, plural(tiles, "tile"),
            "its slot" if tiles == 1 else "their slots")

    def flow_lines(self, explained):
        taken_by = takers(self.flows)
        for number, stream in sorted(self.flows.items()):
            if stream.all_in_time() and stream.booked:
                yield number, gained(number, stream)
            elif stream.booked or stream.elsewhere:
                yield number, stream.sentence(number, explained,
                                              taken_by.get(number))

    def numbers(self):
        """For --json."""
        return dict(zip(("tiles", "in_time", "ahead", "gained"), self.sums()))

    @staticmethod
    def flow_numbers(stream):
        return {"booked": stream.booked, "in_time": stream.in_time,
                "elsewhere": stream.elsewhere, "never": stream.never,
                "ahead": stream.ahead, "gained": stream.gained,
                "most": stream.most}


def wrong_leaving(slot, owner, flow, tile, due):
    """A sentence: a tile of a flow, or none that is known, leaves in a slot
    that is another's, too late, or before the slot after its due one."""
    whose = "" if owner is None else "it was booked for flow %d, and " % owner
    if tile is None:
        return "%sflow %d left, and no tile of it waits that was booked: it " \
            "left twice, or was never booked" % (whose, flow)
    if owner is not None:
        return "%sflow %d's tile of slot %d left in it" % (whose, flow, tile)
    if slot <= due:
        return "flow %d's tile of slot %d left, and it is due in slot %d: it " \
            "may leave from the next one on" % (flow, tile, due)
    return "flow %d's tile of slot %d left, %s late" % (
        flow, tile, plural(slot - tile, "slot"))


def gained(number, stream):
    """The line of a flow all of whose tiles left in time."""
    return ("flow %d: %s, %d ahead; %s gained, a mean of %.2f and at most %d"
            % (number, plural(stream.booked, "tile"), stream.ahead,
               plural(stream.gained, "slot"), stream.gained / stream.booked,
               stream.most))

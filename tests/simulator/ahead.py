"""Sending ahead: rules 24.1 to 24.3.

The calls are a lend and a credit, and nothing is new in the link.  What is
kept besides are a board's tiles: what was booked for which slot, when it
comes, and in which slot it left.
"""

from simulator.burst import HANDLED
from simulator.credit import credit
from simulator.lend import lend, taken
from simulator.link import Link
from simulator.listing import lines_of, split_file
from simulator.plan import read_plan
from simulator.records import ALLCALLS, read_record, split
from simulator.request import arrival


class Tile:
    def __init__(self, slot, due):
        self.slot = slot            # that is booked
        self.due = due              # the slot in which it comes
        self.left = None            # the slot in which it left


class Tiles:
    """The tiles of a link's flows, each list by their slots."""

    def __init__(self, flows):
        self.of = [[] for _ in range(flows)]

    def book(self, flow, slot, due):
        self.of[flow].append(Tile(slot, due))
        self.of[flow].sort(key=lambda tile: tile.slot)

    def waiting(self, flow, now):
        """Those that have neither left nor come up."""
        return [tile for tile in self.of[flow]
                if tile.left is None and tile.slot > now]

    def ready(self, now, hasty=False):
        """For each flow whose first tile that waits came, and was asked for,
        in an earlier slot, that tile (rule 24.2); a hasty board takes this
        slot for one too."""
        first = {flow: self.waiting(flow, now)[:1]
                 for flow in range(len(self.of))}
        return {flow: tiles[0] for flow, tiles in first.items()
                if tiles and tiles[0].due < now + hasty}

    def come_up(self, flow, slot):
        """Whether a tile leaves in its slot: it has not left before."""
        for tile in self.of[flow]:
            if tile.slot == slot and tile.left is None:
                tile.left = slot
                return True
        return False


def due_slot(link, word):
    """The slot in which the tile of a word comes: the current one where it
    has come."""
    comes = arrival(link, word & 1023)
    return link.ticks if comes is None else comes


def mask_of(flows):
    return sum(1 << flow for flow in flows)


def send_ahead(link, ready):
    """The two calls: a lend to the flows that have a tile ready, and a credit
    dated its slot of the flow that it was answered with.  That flow, with the
    two calls, or None."""
    if not ready or taken(link):
        return None
    letter, flow = lend(link, mask_of(ready))
    if letter == "R":
        return None
    tile = ready[flow]
    position = tile.slot % link.plan.slots
    if credit(link, flow, position) != ("C", None):
        raise ValueError("a credit after its lend was refused")
    tile.left = link.ticks
    return flow, mask_of(ready), position


# ---- a board that sends ahead where it can

class Board:
    """A call file played with tiles sent ahead: at the end of each slot from
    slot 1 on, before the tick, where the slot is idle and a flow's first tile
    that waits came, and was asked for, in an earlier slot."""

    def __init__(self, plan):
        self.link = Link(plan)
        self.tiles = Tiles(plan.flows)
        self.left = []              # the flow that left, from slot 1 on
        self.pairs = []             # of slot, mask, flow and position

    def note_grants(self, words, lines):
        """What was booked, by the words and their lines."""
        for word, line in zip(words, lines):
            letter, *numbers = line.split()
            if letter == "G" or letter == "B" and numbers[0] == "0":
                slot = self.link.slot_of(int(numbers[-1]))
                self.tiles.book(word >> 20 & 63, slot,
                                due_slot(self.link, word))

    def end_slot(self):
        """The last thing in a slot; slot 0 has no line of its own."""
        if self.link.ticks == 0:
            return
        sent = send_ahead(self.link, self.tiles.ready(self.link.ticks))
        if sent:
            flow, mask, position = sent
            self.left[-1] = flow
            self.pairs.append((self.link.ticks, mask, flow, position))

    def tick(self, line):
        flow = line[2:]
        leaves = flow != "-" and self.tiles.come_up(int(flow),
                                                    self.link.ticks)
        self.left.append(int(flow) if leaves else None)

    def play(self, call):
        """The lines of a call."""
        if call == ("tick",):
            self.end_slot()
        lines = list(lines_of(self.link, call))
        if call == ("tick",):
            self.tick(lines[0])
        elif call and call[0] in ("request", "burst"):
            words = [call[1]] if call[0] == "request" else call[1][:HANDLED]
            self.note_grants(words, lines)
        elif call and call[0] == "lend" and lines[0].startswith("L "):
            if self.link.ticks:
                self.left[-1] = int(lines[0][2:])
        return lines


def play_ahead(data, kinds=ALLCALLS):
    """The listing of a call file whose board sends ahead, without the lines of
    the pairs; the board; None for it where the plan is refused."""
    parts = split_file(data)
    refusal, plan = read_plan(parts[0]) if parts else (1, None)
    lines = ["P %d" % refusal]
    if refusal:
        return lines, None
    board = Board(plan)
    for record in split(parts[1], kinds):
        lines += board.play(read_record(record, kinds))
    return lines, board

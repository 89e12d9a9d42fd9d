"""One board of a stream's way, as its call file and its listing tell of the
stream: when each tile was asked for, when it was due, and the slot in which it
leaves.  Of other flows, and of the link, nothing is kept."""

import struct

from demand3.check import allcalls, tell_all


class Tile:
    def __init__(self, asked, departure, due):
        self.asked = asked              # the slot in which it was asked for
        self.departure = departure      # the position that its word named
        self.due = due                  # its slot, or that of the request
        self.slot = None                # the slot that it leaves in
        self.refusal = None             # of its request, or None


class Board:
    def __init__(self, data, flow, verdict):
        _, _, _, self.frame_slots, self.window_frames, _ = struct.unpack_from(
            "<6H", data)
        self.total = self.frame_slots * self.window_frames
        self.share = data[12 + 4 * flow]
        self.flow = flow
        self.now = 0                    # the current slot
        self.tiles = []                 # in their order
        self.verdict = verdict
        self.place = 1                  # line number, for messages

    def fault(self, text):
        self.verdict.faults.append("line %d: %s" % (self.place, text))

    def slot_after_now(self, position):
        return self.now + 1 + (position - self.now - 1) % self.total

    def due(self, departure):
        """The current slot where the tile has come, else the departure's."""
        back = (self.now - departure) % self.total
        return (self.now if back <= self.now % self.frame_slots
                else self.slot_after_now(departure))

    def sent(self):
        """The tiles that leave this board."""
        return [tile for tile in self.tiles if tile.slot is not None]

    # ---- the calls, with what the listing says of them

    def request(self, record, letter, number):
        word = struct.unpack_from("<I", record, 1)[0]
        if word >> 20 & 63 != self.flow:
            return
        tile = Tile(self.now, word & 1023, self.due(word & 1023))
        if letter == "G":
            tile.slot = self.slot_after_now(int(number))
        else:
            tile.refusal = number
        self.tiles.append(tile)

    def lend(self, record, letter, number):
        """A tile that leaves in a lent slot was not asked for."""
        if letter == "L" and int(number) == self.flow:
            tile = Tile(self.now, None, self.now)
            tile.slot = self.now
            self.tiles.append(tile)

    def tick(self, record, letter, number):
        self.now += 1

    def credit(self, record, letter, number):
        pass

    def reset(self, record, letter, number):
        pass


KINDS = allcalls(Board)


def read(data, lines, flow, verdict):
    board = Board(data, flow, verdict)
    tell_all(board, data, lines, KINDS)
    return board

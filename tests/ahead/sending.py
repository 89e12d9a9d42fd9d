"""The tiles of the second run: which left in which slot, and what was given
back.  Counted from calls and answers; nothing is known of the link."""

import struct


class Tile:
    def __init__(self, slot, due):
        self.slot, self.due, self.left = slot, due, None


class Sending:
    def __init__(self, data, in_order):
        _, flows, _, self.frame_slots, window_frames, _ = struct.unpack_from(
            "<6H", data)
        self.total = self.frame_slots * window_frames
        self.cells = [data[13 + 4 * flow] for flow in range(flows)]
        self.in_order = in_order            # whether tiles have to be
        self.now = 0
        self.tiles = [[] for _ in range(flows)]
        self.used = set()                   # slots in which a tile left
        self.back = [[] for _ in range(flows)]      # slots of credits
        self.lent = [0] * flows             # tiles without a booking, in all
        self.latest = [0] * flows           # slot that was sent ahead
        self.gains = []

    def slot_after_now(self, position):
        return self.now + 1 + (position - self.now - 1) % self.total

    def due(self, departure):
        """The slot in which a tile comes; the current one where it has come:
        its departure is a slot of this frame up to now."""
        first = self.now - self.now % self.frame_slots
        if any(slot % self.total == departure
               for slot in range(first, self.now + 1)):
            return self.now
        return self.slot_after_now(departure)

    # ---- what happens, each with what is wrong with it, or None

    def book(self, word, position):
        self.tiles[word >> 20 & 63].append(
            Tile(self.slot_after_now(position), self.due(word & 1023)))

    def give(self, flow, position):
        self.back[flow].append(self.slot_after_now(position))

    def lend(self, flow):
        """A lent slot that is no sending ahead: a tile without a booking."""
        self.lent[flow] += 1
        return self.leave(flow)

    def ahead(self, flow, position):
        slot = self.slot_after_now(position)
        tile = next((tile for tile in self.tiles[flow] if tile.slot == slot),
                    None)
        if tile is None:
            return "flow %d sends ahead slot %d, which is not its own" % (
                flow, slot)
        if tile.left is not None:
            return "flow %d sends the tile of slot %d twice" % (flow, slot)
        if tile.due > self.now:
            return "flow %d sends the tile of slot %d before it comes" % (
                flow, slot)
        if tile.due == self.now:
            return ("flow %d sends the tile of slot %d in the slot in which "
                    "it comes" % (flow, slot))
        tile.left = self.now
        self.latest[flow] = max(self.latest[flow], slot)
        self.gains.append(slot - self.now)
        return self.leave(flow) or self.out_of_order(flow, tile)

    def tick(self, owner):
        self.now += 1
        if owner is None:
            return None
        for tile in self.tiles[owner]:
            if tile.slot == self.now and tile.left is None:
                tile.left = self.now
                return self.leave(owner) or self.out_of_order(owner, tile)
        return None

    # ---- what has to hold when a tile leaves

    def leave(self, flow):
        if self.now in self.used:
            return "two tiles leave in slot %d" % self.now
        self.used.add(self.now)
        left = self.lent[flow] + sum(
            tile.left is not None for tile in self.tiles[flow])
        back = sum(slot <= self.now for slot in self.back[flow])
        if left - back > self.cells[flow]:
            return "flow %d is over its cells in slot %d" % (flow, self.now)
        return None

    def out_of_order(self, flow, tile):
        """Each with an earlier slot has left, and none with a later one."""
        wrong = self.in_order and any(
            other.left is None if other.slot < tile.slot
            else other.left is not None and other.slot > tile.slot
            for other in self.tiles[flow])
        return wrong and "flow %d sends the tile of slot %d out of order" % (
            flow, tile.slot)

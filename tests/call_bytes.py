"""The bytes of plans and calls, for those who write call files."""

import struct


def plan(frame_slots, window_frames, buffer, entries,
         length=None, flows=None, offset=12):
    """Plan bytes; `length` and `flows` are what the entries say unless given.
    An entry is (share, cells, source, destination)."""
    if flows is None:
        flows = len(entries)
    if length is None:
        length = 12 + 4 * len(entries)
    header = struct.pack("<6H", length, flows, offset,
                         frame_slots, window_frames, buffer)
    return header + b"".join(bytes(entry) for entry in entries)


def word(destination, flow, quantum=0, departure=0):
    return destination << 26 | flow << 20 | quantum << 10 | departure


def request_of(word):
    return struct.pack("<BI", 1, word)


def request(destination, flow, quantum=0, departure=0):
    return request_of(word(destination, flow, quantum, departure))


def credit(flow, position, filler=0):
    return struct.pack("<BBHB", 2, flow, position, filler)


def lend(mask, fillers=(0, 0)):
    return struct.pack("<BHBB", 4, mask, *fillers)


def burst(words, fillers=(0, 0, 0), count=None):
    """A burst and its words; `count` is how many there are unless given."""
    if count is None:
        count = len(words)
    return (struct.pack("<5B", 6, count, *fillers)
            + b"".join(struct.pack("<I", each) for each in words))


TICK = bytes([3, 0, 0, 0, 0])
RESET = bytes([5, 0, 0, 0, 0])

"""Plans that are asked for in numbers, written as bytes, and refusals 2 to 7
and 19: rules 15.1 and 15.2."""

from simulator.plan import ENTRY, HEADER, PLAN_TESTS

TOO_SHORT = 19


class Asked:
    """The numbers of a plan that is asked for, of any size, under the names
    that the reader's tests use."""

    def __init__(self, frame_slots, window_frames, buffer, entries):
        self.frame_slots = frame_slots
        self.window_frames = window_frames
        self.buffer = buffer
        self.slots = frame_slots * window_frames        # T
        self.entries = [tuple(entry) for entry in entries]
        self.flows = len(self.entries)
        self.offset = HEADER
        self.length = HEADER + ENTRY * self.flows


def low_byte_first(number):
    high, low = divmod(number, 256)
    return bytes([low, high])


def plan_bytes(asked):
    """The header's six fields, then the flow part (rule 2.2)."""
    fields = (asked.length, asked.flows, asked.offset,
              asked.frame_slots, asked.window_frames, asked.buffer)
    data = b"".join(low_byte_first(number) for number in fields)
    for entry in asked.entries:
        data += bytes(entry)
    return data


def write_plan(asked, room):
    """The refusal (0 for none) and the bytes, in a buffer of `room` bytes."""
    # As the reader does, but for 1, and then 19 (rule 15.1).
    for number, wrong in PLAN_TESTS:
        if wrong(asked):
            return number, None
    data = plan_bytes(asked)
    return (TOO_SHORT, None) if room < len(data) else (0, data)

"""A plan by its numbers, from words and bytes, whether it passes or not."""

import struct

from plan import program

HEADER = 12             # bytes before the flows
MOST_FLOWS = 64         # that are asked about: 16 are looked at
FIELDS = ("share", "cells", "from", "to")


class Flow:
    """Four numbers; of a text also a name, if it has one, and a line."""

    def __init__(self, share, cells, source, destination, name=None,
                 line=None):
        self.share, self.cells = share, cells
        self.source, self.destination = source, destination
        self.name, self.line = name, line

    def numbers(self):
        return [self.share, self.cells, self.source, self.destination]


class Plan:
    """F, W and N, the flows in order; of a text the line of the first
    three."""

    def __init__(self, frame_slots, window_frames, buffer, flows, line=None):
        self.frame_slots, self.window_frames = frame_slots, window_frames
        self.buffer = buffer
        self.flows = flows
        self.line = line

    def numbers(self):
        return [self.frame_slots, self.window_frames, self.buffer,
                *(number for flow in self.flows for number in flow.numbers())]

    def question(self, word):
        """With no more flows than a line of a question takes."""
        return program.line(word, self.of_flows(
            range(min(len(self.flows), MOST_FLOWS))).numbers())

    def of_flows(self, numbers):
        """The plan of some of its flows."""
        return Plan(self.frame_slots, self.window_frames, self.buffer,
                    [self.flows[number] for number in numbers])

    def slots_left(self):
        return self.frame_slots - sum(flow.share for flow in self.flows)

    def places_left(self):
        return self.buffer - sum(flow.cells for flow in self.flows)

    def with_flow(self, flow):
        return Plan(self.frame_slots, self.window_frames, self.buffer,
                    [*self.flows, flow])

    def with_buffer(self, buffer):
        return Plan(self.frame_slots, self.window_frames, buffer, self.flows)

    def names(self):
        return any(flow.name for flow in self.flows)


def of_numbers(numbers):
    """The plan of F, W, N and four numbers for each flow."""
    return Plan(*numbers[:3], [Flow(*numbers[place:place + 4])
                               for place in range(3, len(numbers), 4)])


def fits_flows(count):
    """Whether so many numbers are F, W, N and four for each flow."""
    return count >= 3 and count % 4 == 3


def of_bytes(data):
    """The plan whose numbers stand in the bytes of a whole header and whole
    entries."""
    _, _, _, *first = struct.unpack_from("<6H", data)
    return of_numbers([*first, *data[HEADER:]])


def answered(text):
    """The plan of an answer: the word plan and its numbers."""
    word, _, rest = text.partition(" ")
    if word != "plan" or not program.NUMBERS.fullmatch(rest):
        raise ValueError(text)
    numbers = [int(each) for each in rest.split(" ")]
    if not fits_flows(len(numbers)):
        raise ValueError(text)
    return of_numbers(numbers)

"""Records played on images: each result, and the bytes of both buffers, against
single calls in the simulator; and checks of buffers."""

import struct

from generator.dice import Dice
from images.acceptance import refusal_of
from images.host import Script, run
from images.random_calls import some_call
from images.random_images import any_image, taken_image
from images.results import POWER, number_of, said
from simulator.calls import answer
from simulator.image import image_of, link_of
from simulator.records import ALLCALLS, BURST, SIZE, read_record

NUMBER = 8                              # bytes of a result
NO_ROOM = 19
KINDS = {kind: how for kind, how in ALLCALLS.items() if kind != BURST}
OLD = b"\xd7"                           # in `out` before a play
MOST = 40                               # records of a play by chance


def record_of(call):
    """The record of a call whose numbers fit one."""
    name, *numbers = call
    if name == "request":
        return struct.pack("<BI", 1, *numbers)
    if name == "credit":
        return struct.pack("<BBHB", 2, numbers[0] & 255, numbers[1] & 65535, 0)
    if name == "lend":
        return struct.pack("<BHH", 4, numbers[0], 0)
    return bytes([{"tick": 3, "reset": 5}[name], 0, 0, 0, 0])


def records_of(stream):
    """Of five bytes each; the last may be short."""
    return [stream[at:at + SIZE] for at in range(0, len(stream), SIZE)]


class Play:
    """A play on one buffer, with another for its numbers."""

    def __init__(self, name, buffer, stream, out):
        self.name = name
        self.buffer, self.stream, self.out = bytes(buffer), stream, out

    def right(self):
        """The result and both buffers that are right."""
        refusal = refusal_of(self.buffer)
        records = records_of(self.stream)
        if not refusal and len(self.out) < NUMBER * len(records):
            refusal = NO_ROOM
        if refusal:
            return refusal * POWER, self.out, self.buffer
        link = link_of(self.buffer)
        calls = [read_record(record, KINDS) for record in records]
        numbers = [number_of(call, *answer(link, call)) for call in calls]
        image, written = image_of(link), struct.pack("<%dQ" % len(numbers),
                                                     *numbers)
        return (0, written + self.out[len(written):],
                image + self.buffer[len(image):])

    def trouble(self, result, out, buffer):
        right, numbers, kept = self.right()
        if result != right:
            return "%s gives %s, not %s" % (self.name, said(result),
                                            said(right))
        if out != numbers:
            at = next(at for at in range(len(numbers) + 1)
                      if out[at:at + 1] != numbers[at:at + 1])
            return "%s: byte %d of its numbers is another" % (self.name, at)
        return buffer != kept and "%s leaves other bytes" % self.name


def troubles(command, plays):
    """What is wrong with each play, or None."""
    script = Script()
    for play in plays:
        script.buffer(play.buffer)
        script.play(play.stream, play.out)
        script.get()
    answers, wrong = run(command, script)
    if wrong:
        return [wrong]
    return [play.trouble(*answers[3 * at:3 * at + 3])
            for at, play in enumerate(plays)]


def checked(command, buffers):
    """What is wrong with the check of each of these buffers: rule 12.5."""
    script = Script()
    for buffer in buffers:
        script.buffer(buffer)
        script.check()
        script.get()
    answers, wrong = run(command, script)
    if wrong:
        return wrong
    for at, buffer in enumerate(buffers):
        number, left = answers[2 * at:2 * at + 2]
        if number != refusal_of(buffer) or left != buffer:
            return "buffer %d: %d, not %d" % (at, number, refusal_of(buffer))
    return None


# ---- by chance

def some_record(dice, image):
    """Most make calls; some have another kind or a filler that is not 0."""
    record = bytearray(record_of(some_call(dice, image)))
    if dice.chance(10):
        record[dice.below(SIZE)] = dice.pick([0, 1, 4, 5, 6, 7, 255,
                                              dice.below(256)])
    return bytes(record)


def some_play(seed):
    dice = Dice(seed)
    image = any_image(dice) if dice.chance(20) else taken_image(dice)
    stream = b"".join(some_record(dice, image)
                      for _ in range(dice.below(MOST)))
    stream += bytes(dice.below(SIZE)) if dice.chance(20) else b""
    room = NUMBER * len(records_of(stream))
    if dice.chance(15):
        room = dice.below(room + 1)
    elif dice.chance(30):
        room += dice.below(20)
    return Play("play %d" % seed, image, stream, OLD * room)


# ---- by hand: RULES 13.6's calls with a lend and a reset, on a fresh link

# F = 4, W = 2, N = 4; two flows to node 9, each with share 2 and 2 cells
PLAN = bytes.fromhex("140002000C0004000200040002020109"
                     "02020209")
CALLS = bytes.fromhex(
    "0100000024" "0100040024" "0100080024" "0200040000" "0100080024"
    "0100001024" "0300000000"
    "0401000000"                        # a lend: flow 0 booked the slot
    "0401000001"                        # its last filler is not 0
    "0500000000"                        # a reset: later slots are booked
    "0600000000"                        # no record of a play
    "0300")                             # cut off
RESULTS = [0x24000001, 0x24000402, 12 * POWER, 0, 0x24000804, 0x24100003, 0,
           17 * POWER, 16 * POWER, 23 * POWER, 16 * POWER, 16 * POWER]


def by_hand(command):
    """The numbers that were worked out: rule 12.8."""
    script = Script()
    script.buffer(bytes(200))
    script.fresh(PLAN)
    script.play(CALLS, OLD * (NUMBER * len(RESULTS) + 3))
    answers, wrong = run(command, script)
    if wrong:
        return wrong
    numbers = struct.pack("<%dQ" % len(RESULTS), *RESULTS) + 3 * OLD
    return (answers[:2] != [0, 0] and "it gives %r" % answers[:2]
            or answers[2] != numbers and "its numbers are %s" % answers[2].hex())


def no_room(command):
    """One byte too few for the numbers gives 19, and both buffers stay; 21 and
    22 come first; no record needs no room: rule 12.9."""
    image = taken_image(Dice(1))
    broken = image[:12] + b"\xff\xff" + image[14:]
    plays = [Play("a byte too few", image, CALLS, OLD * (8 * 12 - 1)),
             Play("no byte", image, CALLS[:5], b""),
             Play("just enough", image, CALLS[:5], OLD * 8),
             Play("22 before 19", broken, CALLS, b""),
             Play("21 before 19", image[:17], CALLS, b""),
             Play("no record", image, b"", b""),
             Play("no record that makes a call", image, b"\7\0\0\0", OLD * 9)]
    wanted = [NO_ROOM, NO_ROOM, 0, 22, 21, 0, 0]
    given = [play.right()[0] // POWER for play in plays]
    return (given != wanted and "not as by hand"
            or next(filter(None, troubles(command, plays)), None))

"""The lines of domeplan: a question in, the answer out.

A line is a word and numbers or digits: `plan`, F, W, N and four numbers for
each flow ask for a plan's bytes; `room` has the buffer's length in front of
them; `read` and hexadecimal digits ask for the line that would make these
bytes; `mesh`, F and three numbers for each stream whether they are admitted,
`mesh-over` which links are over; `count`, F and n how many share lists fit;
`extras`, slots left, a budget, and share and worth of each layer which to
switch on; `programme`, a minute and three numbers for each entry what runs
then; `faults` and the numbers of `plan` which limits these break, and
`week-faults` and those of `programme`, without the minute, likewise.  A line
that is no question is answered `?` alone: the reason behind it is the
program's."""

import re

from simulator import delay, faults, mesh, share_counts, week_faults
from simulator.extras import Extras, Layer, choose
from simulator.plan import read_plan
from simulator.plan_writer import Asked, write_plan
from simulator.programme import DARK, plan_at

NO_QUESTION = "?"               # stands for this and any reason
LONGEST = 4000                  # bytes of a line
NUMBER = re.compile(rb"[0-9]{1,9}")
BYTES = re.compile(rb"(?:[0-9A-Fa-f]{2})*")
ROOMY = 4096                    # a buffer that holds any plan
LAST_PLAN = 2 ** 16 - 1         # the largest number of a plan


def numbers_of(fields):
    """The fields as numbers, or None if one of them is none."""
    if not all(NUMBER.fullmatch(field) for field in fields):
        return None
    return [int(field) for field in fields]


def refused(number):
    return "R %d" % number


def is_plan(numbers):
    return len(numbers) >= 3 and len(numbers) % 4 == 3


def entries_of(numbers, start, width):
    """So many numbers for each entry, from a place on."""
    return [numbers[i:i + width] for i in range(start, len(numbers), width)]


def written(numbers, room):
    """F, W, N and four numbers for each flow, in a buffer of `room` bytes."""
    if not is_plan(numbers):
        return NO_QUESTION
    entries = entries_of(numbers, 3, 4)
    refusal, data = write_plan(Asked(*numbers[:3], entries), room)
    return refused(refusal) if refusal else data.hex()


def to_plan(fields):
    numbers = numbers_of(fields)
    return NO_QUESTION if numbers is None else written(numbers, ROOMY)


def to_room(fields):
    numbers = numbers_of(fields)
    return written(numbers[1:], numbers[0]) if numbers else NO_QUESTION


def to_read(fields):
    """No field is no byte, and so is an empty one."""
    digits = fields[0] if fields else b""
    if len(fields) > 1 or not BYTES.fullmatch(digits):
        return NO_QUESTION
    refusal, plan = read_plan(bytes.fromhex(digits.decode()))
    if refusal:
        return refused(refusal)
    numbers = [plan.frame_slots, plan.window_frames, plan.buffer]
    for entry in plan.entries:
        numbers += entry
    return " ".join(["plan"] + [str(number) for number in numbers])


def streams_of(fields):
    """F, and the streams after it as threes of numbers; None for neither."""
    numbers = numbers_of(fields)
    if not numbers or len(numbers) % 3 != 1:
        return None
    return numbers[0], [tuple(numbers[i:i + 3])
                        for i in range(1, len(numbers), 3)]


def to_mesh(fields):
    asked = streams_of(fields)
    if asked is None:
        return NO_QUESTION
    refusal = mesh.refusal_before_ways(*asked)
    if not refusal and mesh.overloads(*asked):
        refusal = 25
    return refused(refusal) if refusal else "ok"


def to_mesh_over(fields):
    asked = streams_of(fields)
    if asked is None:
        return NO_QUESTION
    refusal = mesh.refusal_before_ways(*asked)
    if refusal:
        return refused(refusal)
    found = [str(number) for hop in mesh.overloads(*asked) for number in hop]
    return " ".join(["over"] + found) if found else "ok"


def to_count(fields):
    """F and n, and nothing else."""
    numbers = numbers_of(fields)
    if numbers is None or len(numbers) != 2:
        return NO_QUESTION
    refusal, counts = share_counts.count(*numbers)
    return refused(refusal) if refusal else "%d %d" % counts


def to_extras(fields):
    """Slots and budget, and two numbers for each layer."""
    numbers = numbers_of(fields)
    if numbers is None or len(numbers) < 2 or len(numbers) % 2:
        return NO_QUESTION
    layers = [Layer(*numbers[i:i + 2]) for i in range(2, len(numbers), 2)]
    refusal, chosen = choose(Extras(*numbers[:2], layers))
    return refused(refusal) if refusal else "%d %d %d" % chosen


def wide(entries):
    return any(plan > LAST_PLAN for _, _, plan in entries)


def to_programme(fields):
    """The minute, and three numbers for each entry."""
    numbers = numbers_of(fields)
    if not numbers or len(numbers) % 3 != 1:
        return NO_QUESTION
    entries = entries_of(numbers, 1, 3)
    if wide(entries):
        return NO_QUESTION
    refusal, plan = plan_at(numbers[0], entries)
    if refusal:
        return refused(refusal)
    return "dark" if plan is DARK else "plan %d" % plan


def to_delay(fields):
    """F, links, share and burst, and nothing else."""
    numbers = numbers_of(fields)
    if numbers is None or len(numbers) != 4:
        return NO_QUESTION
    if not delay.is_question(numbers[1], numbers[3]):
        return NO_QUESTION
    refusal, bounds = delay.bounds(*numbers)
    return refused(refusal) if refusal else "%d %d %d" % bounds


def told(found):
    """Three numbers for each fault, or the word for none."""
    return " ".join("%d %d %d" % fault for fault in found) or "ok"


def to_faults(fields):
    """The fields of `plan`."""
    numbers = numbers_of(fields)
    if numbers is None or not is_plan(numbers):
        return NO_QUESTION
    return told(faults.of_plan(*numbers[:3], entries_of(numbers, 3, 4)))


def to_week_faults(fields):
    """Three numbers for each entry, and no minute."""
    numbers = numbers_of(fields)
    if numbers is None or len(numbers) % 3:
        return NO_QUESTION
    entries = entries_of(numbers, 0, 3)
    return NO_QUESTION if wide(entries) else told(week_faults.of_week(entries))


WORDS = {b"plan": to_plan, b"room": to_room, b"read": to_read,
         b"mesh": to_mesh, b"mesh-over": to_mesh_over, b"count": to_count,
         b"extras": to_extras, b"programme": to_programme,
         b"delay": to_delay, b"faults": to_faults,
         b"week-faults": to_week_faults}


def answer(line):
    """The answer to a line, which is bytes without the newline."""
    word, *fields = line.split(b" ")
    if len(line) > LONGEST or word not in WORDS:
        return NO_QUESTION
    return WORDS[word](fields)


def lines_of(data):
    """The lines of an input; the last may have no newline."""
    lines = data.split(b"\n")
    return lines if lines[-1] else lines[:-1]


def answers(data):
    return [answer(line) for line in lines_of(data)]

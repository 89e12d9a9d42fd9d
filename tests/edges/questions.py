"""Edges of domeplan: a line, and the answer that it has to get.

Answers are worked out by hand from the rules of section 20 and those that
it names.  What the edges of the plan say of bytes is asked here too, by `read`
of the bytes and by `plan` of their numbers.
"""

import struct

from edges import (
    count_questions, delay_questions, extras_questions, fault_questions,
    mesh_questions, plan_limits, programme_questions, week_questions)
from edges.edge_maker import BASE

NO_QUESTION = "?"               # stands for this and any reason

TWO = "2 2 1 9 2 2 2 9"         # the entries of rule 13.6's listing
LISTING = BASE.hex()            # its plan, 20 bytes
FULL = " ".join("4 255 %d 63" % node for node in range(16))
FULL_HEX = "4c0010000c0040000400ff0f" + "".join(
    "04ff%02x3f" % node for node in range(16))


class Question:
    def __init__(self, name, line, answer):
        self.name = name
        self.line = line if isinstance(line, bytes) else line.encode()
        self.answer = answer


def flows(count):
    """Entries of share 1 with one cell, to node 63."""
    return "".join(" 1 1 %d 63" % (node % 63) for node in range(count))


# ---- plan: numbers to bytes

PLANS = [
    # Rule 2.2: the header's six fields, and four bytes for each flow.
    ("the plan of rule 13.6's listing", "plan 4 2 4 " + TWO,
     "140002000c000400020004000202010902020209"),
    ("the largest plan", "plan 64 4 4095 " + FULL, FULL_HEX),
    ("the smallest plan", "plan 1 2 1 1 1 0 1",
     "100001000c000100020001000101" "0001"),
    # Rule 1.2: N = 513 is hex 0201, low byte first.
    ("both bytes of a field", "plan 4 2 513 1 1 1 9",
     "100001000c00040002000102" "01010109"),
    # Rule 20.3: zeros may lead.
    ("zeros in front of numbers", "plan 000000004 02 4 " + TWO, LISTING),
    # 2: n alone, since length and offset are the writer's own.
    ("no flow", "plan 4 2 4", "R 2"),
    ("17 flows", "plan 64 4 17" + flows(17), "R 2"),
    ("40 flows", "plan 64 4 40" + flows(40), "R 2"),
    ("257 flows, a low byte of 1", "plan 64 4 4" + flows(257), "R 2"),
    ("272 flows, a low byte of 16", "plan 64 4 16" + flows(272), "R 2"),
    # Rule 15.1: numbers that are too wide for their fields; in the comments
    # what they would be if they were cut off.
    ("F = 300", "plan 300 2 4 1 1 1 9", "R 3"),                 # 44
    ("F = 65540", "plan 65540 2 4 1 1 1 9", "R 3"),             # 4
    ("a W of 258", "plan 4 258 4 1 1 1 9", "R 3"),              # 2
    ("W = 65538", "plan 4 65538 4 1 1 1 9", "R 3"),             # 2
    ("N = 70000", "plan 4 2 70000 1 1 1 9", "R 3"),             # 4464
    ("N = 65540", "plan 4 2 65540 1 1 1 9", "R 3"),             # 4
    ("F and W of nine digits", "plan 999999999 999999999 4 1 1 1 9", "R 3"),
    ("F and W whose product is 0 in 32 bits",
     "plan 65536 65536 4 1 1 1 9", "R 3"),
    ("share 300", "plan 64 4 4 300 1 1 9", "R 4"),              # 44
    ("share 257", "plan 4 2 4 257 1 1 9", "R 4"),               # 1
    ("cells 256", "plan 4 2 4095 1 256 1 9", "R 4"),            # 0
    ("cells 257", "plan 4 2 4095 1 257 1 9", "R 4"),            # 1
    ("source 257", "plan 4 2 4 1 1 257 9", "R 4"),              # 1
    ("destination 265", "plan 4 2 4 1 1 1 265", "R 4"),         # 9
    ("an entry of nine-digit numbers",
     "plan 4 2 4 999999999 999999999 999999999 999999999", "R 4"),
    # The first that applies.
    ("17 flows, F = 0", "plan 0 2 4" + flows(17), "R 2"),
    ("no flow, N = 70000", "plan 4 2 70000", "R 2"),
    ("F = 300, share 300", "plan 300 2 4 300 1 1 9", "R 3"),
    ("share 257 and an equal pair", "plan 4 2 4 257 1 1 9 1 1 1 9", "R 4"),
]

# ---- room: the same in a buffer of R bytes, and 19

ROOMS = [
    # Rule 15.2: what is written ends where the plan does.
    ("19 bytes for 20", "room 19 4 2 4 " + TWO, "R 19"),
    ("20 bytes for 20", "room 20 4 2 4 " + TWO, LISTING),
    ("21 bytes for 20", "room 21 4 2 4 " + TWO, LISTING),
    ("no byte for 20", "room 0 4 2 4 " + TWO, "R 19"),
    ("15 bytes for 16", "room 15 1 2 1 1 1 0 1", "R 19"),
    ("16 bytes for 16", "room 16 1 2 1 1 1 0 1",
     "100001000c00010002000100" "01010001"),
    ("75 bytes for 76", "room 75 64 4 4095 " + FULL, "R 19"),
    ("76 bytes for 76", "room 76 64 4 4095 " + FULL, FULL_HEX),
    ("77 bytes for 76", "room 77 64 4 4095 " + FULL, FULL_HEX),
    ("a room of nine digits", "room 999999999 4 2 4 " + TWO, LISTING),
    ("a room of 256, low byte 0", "room 256 4 2 4 " + TWO, LISTING),
    ("a room of 65536, low bytes 0", "room 65536 4 2 4 " + TWO, LISTING),
    # 19 is tested last.
    ("2 before 19: no flow", "room 0 4 2 4", "R 2"),
    ("2 before 19: 17 flows, F = 0", "room 0 0 2 4" + flows(17), "R 2"),
    ("3 before 19", "room 0 300 2 4 1 1 1 9", "R 3"),
    ("4 before 19", "room 0 4 2 4 5 1 1 9", "R 4"),
    ("5 before 19", "room 0 4 2 4 1 1 1 9 1 1 1 9", "R 5"),
    ("6 before 19", "room 0 4 2 4 2 2 1 9 3 2 2 9", "R 6"),
    ("7 before 19", "room 19 4 2 3 " + TWO, "R 7"),
]

# ---- read: bytes to the line that makes them

READS = [
    ("rule 13.6's listing", "read " + LISTING, "plan 4 2 4 " + TWO),
    ("capitals", "read " + LISTING.upper(), "plan 4 2 4 " + TWO),
    ("digits of both cases", "read 140002000C000400020004000202010902020209",
     "plan 4 2 4 " + TWO),
    ("the largest plan", "read " + FULL_HEX, "plan 64 4 4095 " + FULL),
    # Rule 20.5: no digits are no byte.
    ("no digits", "read", "R 1"),
    ("no digits after a blank", "read ", "R 1"),
    ("one byte", "read 14", "R 1"),
    ("19 bytes that say 20", "read " + LISTING[:-2], "R 1"),
    ("21 bytes that say 20", "read " + LISTING + "00", "R 1"),
    # Longer than any plan: 1 where the length isn't the stated one, else 2.
    ("77 bytes that say 77", "read 4d00" + 75 * "00", "R 2"),
    ("77 bytes that say 76", "read " + FULL_HEX + "00", "R 1"),
    ("1,997 bytes that say 1,997", "read cd07" + 1995 * "00", "R 2"),
    ("1,997 bytes that say 1,996", "read cc07" + 1995 * "00", "R 1"),
]

# ---- lines that are no question

FAULTS = [
    # Rule 20.2: a word, and one blank before each field.
    ("an empty line", ""),
    ("a blank", " "),
    ("another word", "write 4 2 4 " + TWO),
    ("a word in capitals", "PLAN 4 2 4 " + TWO),
    ("a word cut short", "pla 4 2 4 " + TWO),
    ("a longer word", "plans 4 2 4 " + TWO),
    ("no blank after the word", "plan4 2 4 " + TWO),
    ("a number for a word", "4 2 4 " + TWO),
    ("a blank in front", " plan 4 2 4 " + TWO),
    ("two blanks after the word", "plan  4 2 4 " + TWO),
    ("two blanks among numbers", "plan 4 2 4  " + TWO),
    ("a blank at the end", "plan 4 2 4 " + TWO + " "),
    ("a tab", "plan 4 2 4\t" + TWO),
    ("a carriage return at the end", "plan 4 2 4 " + TWO + "\r"),
    ("a plus sign", "plan +4 2 4 " + TWO),
    ("a minus sign", "plan 4 2 -4 " + TWO),
    ("a letter in a number", "plan 4 2 4x " + TWO),
    ("a hexadecimal number", "plan 0x4 2 4 " + TWO),
    ("a point", "plan 4.0 2 4 " + TWO),
    ("a comma", "plan 4 2 4,095 " + TWO),
    ("the byte before 0", "plan 4 2 /4 " + TWO),
    ("the byte after 9", "plan 4 2 :4 " + TWO),
    ("a byte of 0", b"plan 4 2 \x004 2 2 1 9"),
    ("bytes above 127", b"plan 4 2 \xb2 2 2 1 9"),
    ("a number of ten digits", "plan 4 2 1000000000 " + TWO),
    ("ten digits that say 4", "plan 0000000004 2 4 " + TWO),
    ("4 + 2^64", "plan 18446744073709551620 2 4 " + TWO),
    ("a room of ten digits", "room 1000000000 4 2 4 " + TWO),
    # Rules 20.4 and 20.6: fields that a question lacks.
    ("plan without numbers", "plan"),
    ("plan with a blank alone", "plan "),
    ("plan with one number", "plan 4"),
    ("plan with two numbers", "plan 4 2"),
    ("an entry of one number", "plan 4 2 4 2"),
    ("an entry of two numbers", "plan 4 2 4 2 2"),
    ("an entry of three numbers", "plan 4 2 4 2 2 1"),
    ("a second entry of three numbers", "plan 4 2 4 2 2 1 9 2 2 2"),
    ("a last number too many", "plan 4 2 4 " + TWO + " 9"),
    ("a wrong number after 17 flows", "plan 64 4 17" + flows(17) + " x"),
    ("a ten-digit number after 17 flows",
     "plan 64 4 17" + flows(17) + " 1 1 1 1000000000"),
    ("17 flows and a number", "plan 64 4 17" + flows(17) + " 9"),
    ("room without numbers", "room"),
    ("room with one number", "room 20"),
    ("room with three numbers", "room 20 4 2"),
    ("room without R", "room 4 2 4 " + TWO),
    ("read with one digit", "read 1"),
    ("read with an odd number of digits", "read " + LISTING + "0"),
    ("read with a letter that is no digit", "read 1g" + LISTING[2:]),
    ("read with the byte before 0", "read 1/" + LISTING[2:]),
    ("read with the byte after 9", "read 1:" + LISTING[2:]),
    ("read with the byte before A", "read 1@" + LISTING[2:]),
    ("read with the byte before a", "read 1`" + LISTING[2:]),
    ("read with a capital that is no digit", "read 1G" + LISTING[2:]),
    ("read with 0x in front", "read 0x" + LISTING),
    ("read with blanks between bytes", "read 14 00 02 00"),
    ("read with two blanks", "read  " + LISTING),
    ("read with a blank at the end", "read " + LISTING + " "),
    ("read with a wrong digit at the far end", "read " + 1996 * "00" + "0x"),
    ("read of numbers", "read 4 2 4 " + TWO),
]


# ---- the longest line

def of_length(length):
    """A question of so many bytes: hundreds of flows, and zeros in front of
    the last number."""
    start, entry = "plan 4 2 4", " 1 1 1 9"
    count, zeros = divmod(length - len(start), len(entry))
    return start + (count - 1) * entry + entry[:-1] + zeros * "0" + entry[-1]


LENGTHS = [
    ("a line of 3,999 bytes", of_length(3999), "R 2"),
    ("a line of 4,000 bytes", of_length(4000), "R 2"),
    ("a line of 4,001 bytes", of_length(4001), NO_QUESTION),
    ("a line of 8,001 bytes", of_length(8001), NO_QUESTION),
    ("a line of 70,000 bytes", of_length(70000), NO_QUESTION),
    ("read with 4,001 bytes", "read ce07" + 1996 * "00", NO_QUESTION),
    ("4,000 bytes of a word", 4000 * "p", NO_QUESTION),
    ("a million bytes", 1000000 * "4", NO_QUESTION),
]

# ---- the edges of the plan, asked

def numbers_of(data):
    """The line that asks for what a plan's bytes say."""
    return " ".join(["plan", *map(str, struct.unpack("<3H", data[6:12])),
                     *map(str, data[12:])])


def read_edges():
    """By `read`: each refusal as it stands there."""
    for name, data in plan_limits.LENGTHS:
        # The reader takes more than 76 bytes, the program of calls doesn't.
        yield name, data, 2 if name == "L = 80 for 17 flows" else 1
    yield from (plan_limits.COUNTS + plan_limits.FRAMES + plan_limits.ENTRIES
                + plan_limits.PAIRS + plan_limits.SUMS + plan_limits.ORDER)


def written_edges():
    """Those that a writer can be asked for: the header is its own."""
    for name, data, number in read_edges():
        if number not in (1, 2):
            yield name, data, number


def to_read(name, data, number):
    return Question("read: plan, " + name, "read " + data.hex(),
                    "R %d" % number if number else numbers_of(data))


def to_plan(name, data, number):
    return Question("plan: numbers, " + name, numbers_of(data),
                    "R %d" % number if number else data.hex())


EDGES = [
    Question("%s: %s" % (word, name), line, answer)
    for word, table in (("plan", PLANS), ("room", ROOMS), ("read", READS),
                        ("mesh", mesh_questions.MESHES),
                        ("mesh-over", mesh_questions.OVERS),
                        ("count", count_questions.COUNTS),
                        ("delay", delay_questions.DELAYS),
                        ("extras", extras_questions.EXTRAS),
                        ("programme", programme_questions.ROWS),
                        ("faults", fault_questions.FAULTS),
                        ("week-faults", week_questions.FAULTS),
                        ("long", LENGTHS))
    for name, line, answer in table]
EDGES += [Question("no question: " + name, line, NO_QUESTION)
          for name, line in FAULTS + mesh_questions.FAULTS
          + count_questions.FAULTS + delay_questions.FAULTS
          + extras_questions.FAULTS + fault_questions.NO_QUESTIONS
          + week_questions.NO_QUESTIONS]
EDGES += [to_read(*row) for row in read_edges()]
EDGES += [to_plan(*row) for row in written_edges()]
EDGES += [Question("no question: programme, " + name, line, NO_QUESTION)
          for name, line in programme_questions.FAULTS]

"""Images that an earlier version of the library wrote.  They are refused:
before lends went in turn the header ended with the mark, and before quantum
numbers were tested a flow's part had none.
"""

from images.by_hand import FRESH, LARGEST_PLAN, NOBODY, NOTHING, PLAN
from images.fields import change

SMALLEST = ("1000 0100 0C00 0100 0200 0400  01 04 01 09"
            "1000 1000  0000 0100 0000 0000")
LARGEST = (LARGEST_PLAN + bytes([16, 0]) * 256
           + (bytes([0, 0, 4, 0]) + bytes(512)) * 16)
TWO_FLOWS = " ".join([PLAN, NOBODY, "0000 0200" + NOTHING,
                      "0000 0200" + NOTHING])

# ---- before lends went in turn: fresh ones of 92, 44 and 8,860 bytes

EIGHT_FIELDS = bytes.fromhex(
    "5C00 1000 2400 0800 3400 0200 0000 0000" + TWO_FLOWS)
EIGHT_FIELDS_SMALLEST = bytes.fromhex(
    "2C00 1000 2000 0200 2400 0100 0000 0000" + SMALLEST)
EIGHT_FIELDS_LARGEST = bytes.fromhex(
    "9C22 1000 5C00 0001 5C02 1000 0000 0000") + LARGEST

# ---- before quantum numbers were tested: fresh ones of 94, 46 and 8,862
# bytes, and one after the listing of rule 13.6

NO_NUMBERS = bytes.fromhex(
    "5E00 1200 2600 0800 3600 0200 0000 0000 0000" + TWO_FLOWS)
NO_NUMBERS_SMALLEST = bytes.fromhex(
    "2E00 1200 2200 0200 2600 0100 0100 0000 0000" + SMALLEST)
NO_NUMBERS_LARGEST = bytes.fromhex(
    "9E22 1200 5E00 0001 5E02 1000 0000 0000 0000") + LARGEST
NO_NUMBERS_PLAYED = bytes.fromhex(" ".join([
    "5E00 1200 2600 0800 3600 0200 0100 0000 0000", PLAN,
    "1000 0000 0000 0100 0000 1000 1000 1000",
    "0100 0100  0000 0100 0200 0200 0200 0200 0200 0200",
    "0000 0100  0000 0000 0000 0100 0100 0100 0100 0100"]))

# Shorter than what they state.
SHORT = [
    ("a header of eight fields, and 91 of 92 bytes", EIGHT_FIELDS[:91]),
    ("a header of eight fields alone", EIGHT_FIELDS[:16]),
    ("no numbers, and 93 of 94 bytes", NO_NUMBERS[:93]),
    ("no numbers, and 98 said", change(NO_NUMBERS, ("total", 98))),
]

LONG_ENOUGH = [
    ("a header of eight fields", EIGHT_FIELDS),
    ("a header of eight fields, and bytes past it", EIGHT_FIELDS + bytes(9)),
    ("a header of eight fields, the smallest", EIGHT_FIELDS_SMALLEST),
    ("a header of eight fields, the largest", EIGHT_FIELDS_LARGEST),
    # The lengths of one of the two headers, and the fields of the other.
    ("nine fields with the offsets of eight",
     EIGHT_FIELDS[:16] + FRESH[16:]),
    ("eight fields with the offsets of nine",
     FRESH[:16] + EIGHT_FIELDS[16:] + bytes(6)),
    ("no numbers", NO_NUMBERS),
    ("no numbers, and the listing's calls", NO_NUMBERS_PLAYED),
    ("no numbers, the smallest", NO_NUMBERS_SMALLEST),
    ("no numbers, the largest", NO_NUMBERS_LARGEST),
    # Bytes that would be numbers stand past it, and not where they belong.
    ("no numbers, and bytes past it", NO_NUMBERS + bytes(4)),
    ("no numbers, in a buffer for the largest", NO_NUMBERS + bytes(8800)),
    ("the total of no numbers, and numbers",
     change(FRESH, ("total", 94))),
    # Flow 1's part is read one field on, so that its C is what it held.
    ("no numbers, and 98 said in 98 bytes",
     change(NO_NUMBERS_PLAYED, ("total", 98)) + bytes(4)),
]

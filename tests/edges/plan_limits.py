"""Edges of the plan: both ends of every limit, and the order of the tests.

A tick follows each plan that is whole: an accepted plan answers it `T -`, a
refused one has made no link and writes nothing more.
"""

from call_bytes import plan
from edges.edge_maker import Edge, TICK

TWO = [(2, 2, 1, 9), (2, 2, 2, 9)]          # shares 2 and 2, cells 2 and 2
GOOD = plan(4, 2, 4, TWO)                   # 20 bytes
SIXTEEN = [(1, 1, place, 63) for place in range(16)]


def one(share=1, cells=1, source=1, destination=9):
    return [(share, cells, source, destination)]


# Rule 13.2, the file is these bytes and nothing more: 1, whatever they say
# otherwise.
LENGTHS = [
    ("an empty file", b""),
    ("one byte", GOOD[:1]),
    ("two bytes", GOOD[:2]),
    ("an 11-byte plan", b"\x0b\x00" + GOOD[2:11]),
    ("11 bytes that say 12", b"\x0c\x00" + GOOD[2:11]),
    ("11 bytes that say 20", GOOD[:11]),
    ("12 bytes that say 20", GOOD[:12]),
    ("19 bytes that say 20", GOOD[:19]),
    ("75 bytes that say 76", plan(64, 4, 16, SIXTEEN)[:75]),
    # L outside 12 to 76, though enough bytes stand there.
    ("L = 0", plan(4, 2, 4, TWO, length=0)),
    ("L = 11", plan(4, 2, 4, TWO, length=11)),
    ("L = 77", plan(64, 4, 16, SIXTEEN, length=77) + bytes(5)),
    ("L = 80 for 17 flows", plan(64, 4, 17, SIXTEEN + one())),
    ("L = 276, low byte 20", plan(4, 2, 4, TWO, length=276) + bytes(300)),
    # 1 is tested before 2: the count is wrong too.
    ("short, with n = 0", plan(4, 2, 4, TWO, flows=0)[:19]),
]

# (name, plan bytes, number)
COUNTS = [
    ("12 bytes, n = 0", plan(4, 2, 4, []), 2),
    ("12 bytes, n = 1", plan(4, 2, 4, [], flows=1), 2),
    ("16 bytes, n = 1", plan(4, 2, 4, one()), 0),
    ("17 bytes, n = 1", plan(4, 2, 4, one(), length=17) + b"\0", 2),
    ("76 bytes, n = 16", plan(16, 2, 16, SIXTEEN), 0),
    ("76 bytes, n = 17", plan(16, 2, 16, SIXTEEN, flows=17), 2),
    ("20 bytes, n = 1", plan(4, 2, 4, TWO, flows=1), 2),
    ("20 bytes, n = 3", plan(4, 2, 4, TWO, flows=3), 2),
    ("20 bytes, n = 258", plan(4, 2, 4, TWO, flows=258), 2),
    ("offset 11", plan(4, 2, 4, TWO, offset=11), 2),
    ("offset 13", plan(4, 2, 4, TWO, offset=13), 2),
    ("offset 268, low byte 12", plan(4, 2, 4, TWO, offset=268), 2),
]

# (field, values that are accepted, values that are refused with 3).  The low
# bytes of F = 260 and W = 258 are good, and the low twelve bits of N = 4100.
SIZES = [
    ("F", (1, 64), (0, 65, 260)),
    ("W", (2, 8), (0, 1, 9, 258)),
    ("N", (1, 4095), (0, 4096, 4100)),
]

# (F, W, number): T = F x W is at most 256.
WINDOWS = [
    (64, 4, 0), (64, 5, 3), (32, 8, 0), (33, 8, 3), (51, 5, 0), (43, 6, 3),
    (64, 8, 3),
]


def sized(field, value, number):
    sizes = {"F": 4, "W": 2, "N": 4, field: value}
    return "%s = %d" % (field, value), plan(*sizes.values(), one()), number


FRAMES = [sized(field, value, number) for field, good, bad in SIZES
          for number, values in ((0, good), (3, bad)) for value in values]
FRAMES += [("T = %d x %d" % (slots, frames), plan(slots, frames, 4, TWO),
            number) for slots, frames, number in WINDOWS]

ENTRIES = [
    ("share 0", plan(4, 2, 4, one(share=0)), 4),
    ("share F", plan(4, 2, 4, one(share=4)), 0),
    ("share F + 1", plan(4, 2, 4, one(share=5)), 4),
    ("cells 0", plan(4, 2, 4, one(cells=0)), 4),
    ("cells 1", plan(4, 2, 4, one(cells=1)), 0),
    ("cells 255", plan(4, 2, 255, one(cells=255)), 0),
    ("source 0", plan(4, 2, 4, one(source=0)), 0),
    ("source 63", plan(4, 2, 4, one(source=63)), 0),
    ("source 64", plan(4, 2, 4, one(source=64)), 4),
    ("destination 0", plan(4, 2, 4, one(destination=0)), 0),
    ("destination 63", plan(4, 2, 4, one(destination=63)), 0),
    ("destination 64", plan(4, 2, 4, one(destination=64)), 4),
    ("source is destination", plan(4, 2, 4, one(source=9)), 4),
    ("the last entry alone is wrong",
     plan(16, 2, 16, SIXTEEN[:15] + one(cells=0)), 4),
]

PAIRS = [
    ("equal pairs", plan(4, 2, 4, one() + one()), 5),
    ("equal pairs, other shares and cells",
     plan(4, 2, 4, one() + one(share=2, cells=3)), 5),
    ("equal pairs, first and last",
     plan(16, 2, 16, SIXTEEN[:15] + SIXTEEN[:1]), 5),
    ("equal sources only", plan(4, 2, 4, one() + one(destination=8)), 0),
    ("equal destinations only", plan(4, 2, 4, one() + one(source=2)), 0),
    ("a pair the other way round",
     plan(4, 2, 4, one() + one(source=9, destination=1)), 0),
]

SUMS = [
    ("shares 2 and 2, F = 4", plan(4, 2, 4, TWO), 0),
    ("shares 2 and 3, F = 4", plan(4, 2, 4, TWO[:1] + [(3, 2, 2, 9)]), 6),
    ("16 shares, F = 15", plan(15, 2, 16, SIXTEEN), 6),
    # 4 x 64 = 256 and 16 x 64 = 1,024: sums that do not fit in a byte.
    ("shares add to 256",
     plan(64, 4, 16, [(64, 1, place, 9) for place in range(4)]), 6),
    ("shares add to 1,024",
     plan(64, 4, 16, [(64, 1, place, 63) for place in range(16)]), 6),
    ("cells 2 and 2, N = 4", plan(4, 2, 4, TWO), 0),
    ("cells 2 and 2, N = 3", plan(4, 2, 3, TWO), 7),
    ("cells add to 256, N = 255",
     plan(4, 2, 255, [(1, 128, 1, 9), (1, 128, 2, 9)]), 7),
    ("16 x 255 cells, N = 4,080",
     plan(64, 4, 4080, [(1, 255, place, 63) for place in range(16)]), 0),
    ("16 x 255 cells, N = 4,079",
     plan(64, 4, 4079, [(1, 255, place, 63) for place in range(16)]), 7),
]

# Two faults: the earlier test in rule 2.3's table gives the number.
ORDER = [
    ("2 and 3: n and F", plan(0, 2, 4, TWO, flows=3), 2),
    ("2 and 3: offset and T", plan(64, 5, 4, TWO, offset=13), 2),
    ("2 and 4", plan(4, 2, 4, one(share=0), flows=2), 2),
    ("2 and 5", plan(4, 2, 4, one() + one(), flows=1), 2),
    ("2 and 6", plan(4, 2, 4, one(3) + one(3, source=2), offset=11), 2),
    ("2 and 7", plan(4, 2, 3, TWO, offset=11), 2),
    ("3 and 4: W and a share", plan(4, 1, 4, one(share=0)), 3),
    ("3 and 4: F = 0 below every share", plan(0, 2, 4, one(share=1)), 3),
    ("3 and 5", plan(4, 9, 4, one() + one()), 3),
    ("3 and 6", plan(65, 2, 4, one(40) + one(40, source=2)), 3),
    ("3 and 7: N = 0 below every cell", plan(4, 2, 0, one()), 3),
    ("4 and 5: the pair comes first", plan(
        4, 2, 4, one() + one() + one(cells=0, source=2)), 4),
    ("4 and 6: a share above F", plan(4, 2, 4, one(5)), 4),
    ("4 and 6: a node", plan(4, 2, 4, one(3) + one(3, source=64)), 4),
    ("4 and 7", plan(4, 2, 3, one(cells=4, source=64)), 4),
    ("5 and 6", plan(4, 2, 4, one(3) + one(3)), 5),
    ("5 and 7", plan(4, 2, 3, one(cells=2) + one(cells=2)), 5),
    ("6 and 7", plan(4, 2, 3, one(3, 2) + one(3, 2, source=2)), 6),
]


def with_tick(name, data, number):
    """Rule 2.4: only an accepted plan has a link that ticks."""
    lines = ["P %d" % number] + (["T -"] if number == 0 else [])
    return Edge("plan: " + name, data + TICK, lines)


EDGES = [Edge("plan: " + name, data, ["P 1"]) for name, data in LENGTHS]
EDGES += [with_tick(*row) for row in
          COUNTS + FRAMES + ENTRIES + PAIRS + SUMS + ORDER]

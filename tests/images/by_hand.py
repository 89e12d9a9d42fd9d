"""Images worked out by hand from rules 12.1 to 12.3: whole ones after some
calls; and for each condition images that break it and no other, and images at
its edge that are taken.
"""

from call_bytes import TICK, lend
from edges.edge_maker import BASE, ask, credit, edge, plan
from edges.from_the_paper import EDGES
from images.fields import change

# F = 4, W = 2, two flows with share 2 and 2 cells: 98 bytes.
HEADER = "6200 1200 2600 0800 3600 0200 %s %s %s"
PLAN = "1400 0200 0C00 0400 0200 0400  02 02 01 09  02 02 02 09"
NOBODY = "1000 1000 1000 1000 1000 1000 1000 1000"
NOTHING = "0000 0000 0000 0000 0000 0000 0000 0000"


def image(current, taken, look_from, owners, *flows):
    return bytes.fromhex(" ".join([HEADER % (current, taken, look_from), PLAN,
                                   owners, *flows]))


# Rule 12.1, and rules 4.1 and 4.2: all that a fresh link keeps.
FRESH = image("0000", "0000", "0000", NOBODY,
              "0000 0200" + NOTHING + "0000",
              "0000 0200" + NOTHING + "0000")

# The listing of rule 13.6: flow 0 booked 1, 2 and 4, flow 1 booked 3; flow
# 0's credit is dated 4, and its refusal 12 left IF at frame 1.  Their next
# numbers are 3 and 1.
PLAYED = image("0100", "0000", "0000",
               "1000 0000 0000 0100 0000 1000 1000 1000",
               "0100 0100  0000 0100 0200 0200 0200 0200 0200 0200  0300",
               "0000 0100  0000 0000 0000 0100 0100 0100 0100 0100  0100")

# Slot 1 is lent to flow 0, and flow 1 comes after it.
LENT = image("0100", "0100", "0100", NOBODY,
             "0000 0200  0000 0100 0100 0100 0100 0100 0100 0100  0000",
             "0000 0200" + NOTHING + "0000")

# One flow with share 2 and 4 cells: 18 + 16 + 16 + 22 = 72 bytes.  At slot 4
# positions 0 to 3 are slots 8 to 11.  The booking of slot 2 is gone and its
# cell still held; 5, 6 and slot 8 are booked, and a cell is back from slot 10
# on.  Four words were granted.
GONE_ROUND = bytes.fromhex(
    "4800 1200 2200 0800 3200 0100 0400 0000 0000"
    "1000 0100 0C00 0400 0200 0400  02 04 01 09"
    "0000 1000 1000 1000 1000 0000 0000 1000"
    "0000 0100  0400 0400 0300 0300 0100 0200 0300 0300  0400")

# F = 1, W = 2 and one flow, share 1 and 4 cells, after a tick and refusal 20
# for departure 0: IF is frame 0, the newest.
SMALLEST = bytes.fromhex(
    "3000 1200 2200 0200 2600 0100 0100 0000 0000"
    "1000 0100 0C00 0100 0200 0400  01 04 01 09"
    "1000 1000  0000 0100 0000 0000  0000")

# One flow with share 2 and a cell: 72 bytes.  Its C in frame 0 was 1.
FULL_LATER = bytes.fromhex(
    "4800 1200 2200 0800 3200 0100 0000 0000 0000"
    "1000 0100 0C00 0400 0200 0100  02 01 01 09"
    "1000 0000 1000 1000 1000 1000 1000 1000"
    "0100 0200  0000 0100 0100 0100 0100 0100 0100 0100  0100")

# Three flows with share 1 and 8 cells, fresh: 18 + 24 + 16 + 66 = 124 bytes.
THREE_PLAN = plan(4, 2, (1, 8), (1, 8), (1, 8))
THREE = bytes.fromhex(
    "7C00 1200 2A00 0800 3A00 0300 0000 0000 0000"
    "1800 0300 0C00 0400 0200 1800"
    "01 08 01 09  01 08 02 09  01 08 03 09" + NOBODY
    + 3 * ("0000 0100" + NOTHING + "0000"))

# The most that there is: 18 + 76 + 2 x 256 + 16 x 2 x 259 = 8,894 bytes.
LARGEST_PLAN = plan(64, 4, *[(4, 255)] * 16)
LARGEST = (bytes.fromhex("BE22 1200 5E00 0001 5E02 1000 0000 0000 0000")
           + LARGEST_PLAN + bytes([16, 0]) * 256
           + (bytes([0, 0, 4, 0]) + bytes(512) + bytes(2)) * 16)

# (calls, the image after the last of them)
AFTER_CALLS = [
    (edge("image: fresh", BASE), FRESH),
    (edge("image: refusals that change nothing", BASE,
          (ask(2), "R 8"), (ask(0, to=8), "R 9"),
          (ask(0, departure=8), "R 10"), (ask(0, quantum=1), "R 24"),
          (ask(0, quantum=1, departure=7), "R 24"), (credit(0, 8), "R 13"),
          (credit(0, 0), "R 14"), (credit(0, 1), "R 15"),
          (lend(4), "R 8"), (lend(0), "R 18")), FRESH),
    (edge("image: 20 moves IF", BASE, (ask(0, departure=7), "R 20")),
     change(FRESH, ("IF", 0, 1))),
    (edge("image: 12 moves IF and C", plan(4, 2, (2, 1)),
          (ask(0), "G 1"), (ask(0), "R 12")), FULL_LATER),
    (EDGES[0], PLAYED),
    (edge("image: a lent slot", BASE, (TICK, "T -"), (lend(1), "L 0")), LENT),
    (edge("image: the mark ends with a tick", BASE,
          (TICK, "T -"), (lend(1), "L 0"), (TICK, "T -")),
     change(LENT, ("CP", 2), ("taken", 0))),
    (edge("image: going round", plan(4, 2, (2, 4)),
          (ask(0, departure=1), "G 2"), (TICK, "T -"), (TICK, "T 0"),
          (TICK, "T -"), (TICK, "T -"),
          (ask(0), "G 5"), (ask(0), "G 6"), (ask(0), "G 0"),
          (credit(0, 2), "C")), GONE_ROUND),
    (edge("image: F = 1", plan(1, 2, (1, 4)),
          (TICK, "T -"), (ask(0, departure=0), "R 20")), SMALLEST),
]

# The flow to look from, after lends and other calls.
AFTER_LENDS = [
    (edge("image: fresh, three flows", THREE_PLAN), THREE),
    (edge("image: lent to the middle one of three", THREE_PLAN,
          (lend(2), "L 1")),
     change(THREE, ("taken", 1), ("look from", 2), ("held", 1, [1] * 8))),
    # Flow 0 comes after flow n - 1, as on a fresh link.
    (edge("image: lent to the last one of three", THREE_PLAN,
          (lend(4), "L 2")),
     change(THREE, ("taken", 1), ("held", 2, [1] * 8))),
    (edge("image: lent to the only one", plan(1, 2, (1, 4)),
          (lend(1), "L 0")),
     change(SMALLEST, ("CP", 0), ("taken", 1), ("held", 0, [1, 1]))),
    (edge("image: lent to flow 14 of sixteen", LARGEST_PLAN,
          (lend(0x4000), "L 14")),
     change(LARGEST, ("taken", 1), ("look from", 15),
            ("held", 14, [1] * 256))),
    (edge("image: lent to flow 15 of sixteen", LARGEST_PLAN,
          (lend(0x8000), "L 15")),
     change(LARGEST, ("taken", 1), ("held", 15, [1] * 256))),
    (edge("image: lends over changing masks", THREE_PLAN,
          (lend(6), "L 1"), (TICK, "T -"), (lend(5), "L 2"), (TICK, "T -"),
          (lend(6), "L 1"), (TICK, "T -"), (lend(3), "L 0")),
     change(THREE, ("CP", 3), ("taken", 1), ("look from", 1),
            ("held", 0, [0, 0, 0, 1, 1, 1, 1, 1]),
            ("held", 1, [1, 1, 2, 2, 2, 2, 2, 2]),
            ("held", 2, [0, 1, 1, 1, 1, 1, 1, 1]))),
    (edge("image: refused lends leave the flow to look from", THREE_PLAN,
          (lend(2), "L 1"), (lend(7), "R 17"), (TICK, "T -"),
          (lend(0), "R 18"), (lend(8), "R 8")),
     change(THREE, ("CP", 1), ("look from", 2), ("held", 1, [1] * 8))),
    # Flow 1 books slot 1, and its refusal 20 leaves IF at frame 1.
    (edge("image: other calls leave the flow to look from", THREE_PLAN,
          (lend(1), "L 0"), (ask(1), "G 1"), (ask(1, departure=7), "R 20"),
          (credit(0, 2), "C"), (credit(2, 2), "R 15"), (TICK, "T 1")),
     change(THREE, ("CP", 1), ("look from", 1), ("owner", 1, 1),
            ("IF", 1, 1), ("number", 1, 1),
            ("held", 0, [1, 1, 0, 0, 0, 0, 0, 0]),
            ("held", 1, [0, 1, 1, 1, 1, 1, 1, 1]))),
    (edge("image: a frame change leaves the flow to look from", THREE_PLAN,
          (lend(1), "L 0"), *[(TICK, "T -")] * 4),
     change(THREE, ("CP", 4), ("look from", 1), ("IF", 0, 1), ("IF", 1, 1),
            ("IF", 2, 1), ("held", 0, [1] * 8))),
]
AFTER_CALLS += AFTER_LENDS

# ---- images that are taken (rule 12.3)

# Both flows have bookings in frame 0 up to their share.
FULL_FRAME = change(FRESH, ("owner", 0, 0), ("owner", 1, 1), ("owner", 2, 0),
                    ("owner", 3, 1), ("C", 0, 0), ("C", 1, 0))

TAKEN = [
    ("fresh", FRESH), ("played", PLAYED), ("lent", LENT),
    ("gone round", GONE_ROUND), ("the smallest", SMALLEST),
    ("the largest", LARGEST),
    ("three bytes more", PLAYED + b"\xff\xff\xff"),
    ("a thousand bytes more", PLAYED + bytes(1000)),
    ("another plan: N = 4,095", change(FRESH, ("plan", 10, 255),
                                       ("plan", 11, 15))),
    ("another plan: 255 cells", change(
        FRESH, ("plan", 10, 255), ("plan", 11, 15), ("plan", 13, 255),
        ("held", 0, [0, 0, 0, 0, 0, 0, 0, 0]))),
    # CP alone: the head frame is frame 1, and IF = 0 is the newest.
    ("CP is T - 1", change(FRESH, ("CP", 7))),
    ("the mark is 1", change(FRESH, ("taken", 1))),
    ("the mark is 1 though CP is booked", change(PLAYED, ("taken", 1))),
    ("the flow to look from is n - 1", change(FRESH, ("look from", 1))),
    ("the flow to look from is 2 of three", change(THREE, ("look from", 2))),
    ("the flow to look from is 15 of sixteen",
     change(LARGEST, ("look from", 15))),
    ("the expected number is 1,023", change(FRESH, ("number", 0, 1023))),
    ("the expected number of the last flow is 1,023",
     change(FRESH, ("number", 1, 1023))),
    ("the expected number of each of sixteen flows is 1,023", change(
        LARGEST, *[("number", flow, 1023) for flow in range(16)])),
    # No chain leads there: slot 1 is booked, and no word was granted.
    ("the expected number is below the bookings",
     change(PLAYED, ("number", 0, 0), ("number", 1, 1022))),
    ("IF is W - 1", change(FRESH, ("IF", 0, 1))),
    ("as many bookings as the share in a frame", FULL_FRAME),
    ("the share in each of two frames", change(
        FULL_FRAME, ("owner", 4, 0), ("owner", 5, 0), ("IF", 0, 1))),
    ("C is 0 with the share booked in IF", change(
        FULL_FRAME, ("CP", 3))),
    ("a rest of the share lost in an earlier frame", change(
        FRESH, ("owner", 1, 0), ("IF", 0, 1), ("C", 0, 2))),
    # The head is frame 1, so that frame 0 comes after it.
    ("a booking in a frame with a higher number than IF", change(
        FRESH, ("CP", 5), ("owner", 6, 0))),
    ("bookings in both frames, going round", change(
        FRESH, ("CP", 5), ("owner", 6, 0), ("owner", 1, 0), ("C", 0, 1))),
    ("all cells held everywhere", change(FRESH, ("held", 0, [2] * 8))),
    ("holdings at CP and before it", change(
        FRESH, ("CP", 3), ("held", 0, [2, 0, 1, 2, 2, 1, 1, 0]))),
    ("a rise of two at CP", change(
        FRESH, ("CP", 2), ("held", 0, [0, 0, 2, 2, 2, 2, 2, 2]))),
    ("a fall of two after CP", change(
        FRESH, ("held", 0, [2, 0, 0, 0, 0, 0, 0, 0]))),
    ("a rise of one at a booked position", change(
        FRESH, ("owner", 1, 0), ("C", 0, 1),
        ("held", 0, [0, 1, 1, 1, 1, 1, 1, 1]))),
    ("a booked position without a rise", change(
        FRESH, ("owner", 1, 0), ("C", 0, 1))),
    ("a fall at a booked position", change(
        FRESH, ("owner", 1, 0), ("C", 0, 1),
        ("held", 0, [1, 0, 0, 0, 0, 0, 0, 0]))),
    ("a rise at position 0, booked, later than CP", change(
        FRESH, ("CP", 5), ("owner", 0, 0), ("C", 0, 1),
        ("held", 0, [1, 1, 1, 1, 0, 0, 0, 0]))),
    ("a rise at the window's last position, booked, at CP 4", change(
        FRESH, ("CP", 4), ("owner", 3, 0), ("C", 0, 1), ("held", 0, 3, 1))),
    # The head's first position follows the window's last; nothing is
    # compared there.
    ("a rise from the window's last position to its first", change(
        FRESH, ("CP", 5), ("held", 0, [0, 0, 0, 0, 2, 2, 0, 0]))),
    ("a rise at the head's first position, which is CP", change(
        FRESH, ("CP", 4), ("held", 0, [0, 0, 0, 0, 2, 1, 0, 0]))),
]

# ---- images that break one condition

HEADER_FIELDS = [
    ("total length", "total", (0, 1, 4, 17, 18, 94, 96, 97, 98 + 256)),
    ("offset of the plan", "plan at", (0, 16, 17, 19, 20, 38, 18 + 256)),
    ("offset of positions", "positions at", (0, 36, 37, 39, 38 + 256)),
    ("count of positions", "positions", (0, 7, 9, 8 + 256)),
    ("offset of flows", "flows at", (0, 52, 53, 55, 56, 54 + 256)),
    ("count of flows", "flows", (0, 1, 3, 2 + 256)),
]

PLANS = [
    ("length", ("plan", 0, 21)), ("n", ("plan", 2, 3)),
    ("offset", ("plan", 4, 13)), ("W = 1", ("plan", 8, 1)),
    ("N = 0", ("plan", 10, 0)), ("share 0", ("plan", 12, 0)),
    ("cells 0", ("plan", 13, 0)), ("same ends", ("plan", 14, 9)),
    ("destination 64", ("plan", 15, 64)), ("equal pairs", ("plan", 18, 1)),
    ("shares above F", ("plan", 16, 3)), ("cells above N", ("plan", 10, 3)),
]

# (condition, what breaks it, changes to the fresh image)
LINKS = [
    ("CP is below T", "T", [("CP", 8)]),
    ("CP is below T", "256", [("CP", 256)]),
    ("CP is below T", "65,535", [("CP", 65535)]),
    ("the taken mark is 0 or 1", "2", [("taken", 2)]),
    ("the taken mark is 0 or 1", "256", [("taken", 256)]),
    ("the taken mark is 0 or 1", "257", [("taken", 257)]),
    ("the flow to look from is below n", "n", [("look from", 2)]),
    ("the flow to look from is below n", "16", [("look from", 16)]),
    ("the flow to look from is below n", "256", [("look from", 256)]),
    ("the flow to look from is below n", "257", [("look from", 257)]),
    ("the flow to look from is below n", "65,535", [("look from", 65535)]),
    ("every owner is a flow or none", "n", [("owner", 0, 2)]),
    ("every owner is a flow or none", "15", [("owner", 7, 15)]),
    ("every owner is a flow or none", "17", [("owner", 5, 17)]),
    ("every owner is a flow or none", "256", [("owner", 1, 256)]),
    ("every owner is a flow or none", "272", [("owner", 1, 272)]),
    ("every owner is a flow or none", "65,535", [("owner", 6, 65535)]),
    ("IF is below W", "W", [("IF", 0, 2)]),
    ("IF is below W", "256", [("IF", 1, 256)]),
    ("IF is below W", "65,535", [("IF", 1, 65535)]),
    # Three in frame 0; IF is frame 1 and has the whole share.
    ("bookings in a frame are at most the share", "three to come",
     [("owner", 1, 0), ("owner", 2, 0), ("owner", 3, 0), ("IF", 0, 1)]),
    ("bookings in a frame are at most the share", "all gone by",
     [("CP", 3), ("owner", 0, 1), ("owner", 1, 1), ("owner", 2, 1),
      ("IF", 1, 1)]),
    ("no booking lies in a frame after IF", "frame 1 after 0",
     [("owner", 4, 0)]),
    ("no booking lies in a frame after IF", "frame 1, the last flow",
     [("owner", 7, 1)]),
    ("no booking lies in a frame after IF", "frame 0 after 1",
     [("CP", 5), ("IF", 0, 1), ("IF", 1, 1), ("owner", 1, 0)]),
    ("bookings in IF and C add to the share", "one too few", [("C", 0, 1)]),
    ("bookings in IF and C add to the share", "one too many", [("C", 1, 3)]),
    ("bookings in IF and C add to the share", "258", [("C", 0, 258)]),
    ("bookings in IF and C add to the share", "65,535", [("C", 0, 65535)]),
    ("bookings in IF and C add to the share", "with a booking",
     [("owner", 2, 0)]),
    ("bookings in IF and C add to the share", "with a booking gone by",
     [("CP", 3), ("owner", 2, 0)]),
    ("bookings in IF and C add to the share", "of the other frame",
     [("owner", 1, 0), ("IF", 0, 1), ("C", 0, 1)]),
    ("holdings are 0 to the cells", "before CP",
     [("CP", 3), ("held", 0, 0, 3)]),
    ("holdings are 0 to the cells", "at CP", [("held", 1, 0, 3)]),
    ("holdings are 0 to the cells", "everywhere", [("held", 0, [3] * 8)]),
    ("holdings are 0 to the cells", "257",
     [("CP", 3), ("held", 1, 2, 257)]),
    ("holdings are 0 to the cells", "65,535", [("held", 0, 0, 65535)]),
    ("the expected number is below 1,024", "1,024", [("number", 0, 1024)]),
    ("the expected number is below 1,024", "1,025", [("number", 1, 1025)]),
    # Their low bytes are 0, and 255 as 1,023's is.
    ("the expected number is below 1,024", "1,280", [("number", 0, 1280)]),
    ("the expected number is below 1,024", "32,768", [("number", 1, 32768)]),
    ("the expected number is below 1,024", "1,279", [("number", 0, 1279)]),
    ("the expected number is below 1,024", "65,535", [("number", 1, 65535)]),
    ("a later holding rises by at most one", "just after CP",
     [("owner", 1, 0), ("C", 0, 1), ("held", 0, [0] + [2] * 7)]),
    ("a later holding rises by at most one", "at the window's end",
     [("owner", 7, 0), ("IF", 0, 1), ("C", 0, 1), ("held", 0, 7, 2)]),
    ("a later holding rises by at most one", "at position 0",
     [("CP", 5), ("owner", 0, 0), ("C", 0, 1),
      ("held", 0, [2, 2, 2, 2, 0, 0, 0, 0])]),
    ("a later holding rises only at a booked position", "nobody's",
     [("held", 0, [0] + [1] * 7)]),
    ("a later holding rises only at a booked position", "the other flow's",
     [("owner", 1, 1), ("C", 1, 1), ("held", 0, [0] + [1] * 7)]),
    ("a later holding rises only at a booked position", "the window's last",
     [("held", 1, 7, 1)]),
    ("a later holding rises only at a booked position", "position 0",
     [("CP", 5), ("held", 0, [1, 1, 1, 1, 0, 0, 0, 0])]),
    # The head is frame 1: position 3 is the window's last, going round.
    ("a later holding rises only at a booked position", "the last, at CP 4",
     [("CP", 4), ("held", 0, 3, 1)]),
    ("a later holding rises only at a booked position", "of none at CP 7",
     [("CP", 7), ("held", 1, [0, 0, 1, 0, 0, 0, 0, 0])]),
    ("a later holding rises only at a booked position", "after a fall",
     [("held", 0, [2, 1, 1, 1, 2, 1, 1, 1])]),
]

BROKEN = [(condition, "%d" % value, change(FRESH, (field, value)) + bytes(300))
          for condition, field, values in HEADER_FIELDS for value in values]
BROKEN += [("the plan passes", name, change(FRESH, changed))
           for name, changed in PLANS]
BROKEN += [(condition, name, change(FRESH, *changes))
           for condition, name, changes in LINKS]
BROKEN += [("the flow to look from is below n", name,
            change(whole, ("look from", value)))
           for name, whole, value in (
               ("n = 1", SMALLEST, 1), ("n = 3", THREE, 3),
               ("n = 16", LARGEST, 16), ("n, after a lend", LENT, 2))]
BROKEN += [("the expected number is below 1,024", name,
            change(whole, ("number", flow, 1024)))
           for name, whole, flow in (
               ("of the only flow", SMALLEST, 0),
               ("of the middle one", THREE, 1),
               ("of flow 15", LARGEST, 15), ("after calls", PLAYED, 0))]

# ---- buffers that are too short (rule 12.2), whatever else is wrong

SHORT = [
    ("no bytes", b""), ("one byte", FRESH[:1]), ("17 bytes", FRESH[:17]),
    ("17 bytes that say 17", bytes([17]) + bytes(16)),
    ("16 bytes that say 16", bytes([16]) + bytes(15)),
    ("17 bytes that say 0", bytes(17)),
    ("the header alone", FRESH[:18]), ("97 bytes", FRESH[:97]),
    ("96 bytes, all but the last number", FRESH[:96]),
    ("99 said, 98 there", change(FRESH, ("total", 99))),
    ("65,535 said, 98 there", change(FRESH, ("total", 65535))),
    ("354 said, 98 there", change(FRESH, ("total", 354))),
    ("99 said, 98 there, and CP is T",
     change(FRESH, ("total", 99), ("CP", 8))),
    ("99 said, 98 there, and the flow to look from is n",
     change(FRESH, ("total", 99), ("look from", 2))),
    ("99 said, 98 there, and an expected number is 1,024",
     change(FRESH, ("total", 99), ("number", 0, 1024))),
    ("97 bytes, and the plan fails", change(FRESH, ("plan", 2, 3))[:97]),
    ("8,893 bytes of the largest", LARGEST[:-1]),
]
# Long enough for what they say, which is wrong.
LONG_ENOUGH = [
    ("18 bytes that say 18", bytes([18]) + bytes(17)),
    ("18 bytes that say 0", bytes(18)),
    ("18 bytes that say 16", bytes([16]) + bytes(17)),
    ("97 bytes that say 97", change(FRESH, ("total", 97))[:97]),
    ("22 bytes that say 20", bytes([20]) + bytes(21)),
    ("99 bytes that say 99", change(FRESH, ("total", 99)) + b"\0"),
    ("97 bytes that say 96", change(FRESH, ("total", 96))[:97]),
    # The fresh image, cut off in each of its parts, which it says itself.
    *[("the first %d bytes, which say so" % length,
       change(FRESH, ("total", length))[:length])
      for length in (18, 19, 20, 29, 30, 37, 38, 39, 53, 54, 55, 59, 74, 76,
                     94, 95, 96)],
    # Its low byte alone would be a booking of flow 0.
    ("owner 256, with C one less",
     change(FRESH, ("owner", 1, 256), ("C", 0, 1))),
]

# ---- fresh: the plan is tested first, then the buffer

CELLS_ABOVE = BASE[:10] + bytes([3]) + BASE[11:]        # N = 3
SHARES_ABOVE = BASE[:16] + bytes([3]) + BASE[17:]       # 2 and 3 of F = 4

# (name, plan, bytes of the buffer, refusal)
FRESH_CALLS = [
    ("cells above N, no buffer", CELLS_ABOVE, 0, 7),
    ("cells above N, 97 bytes", CELLS_ABOVE, 97, 7),
    ("cells above N, 98 bytes", CELLS_ABOVE, 98, 7),
    ("shares above F, 17 bytes", SHARES_ABOVE, 17, 6),
    ("a plan of 11 bytes, no buffer", BASE[:11], 0, 1),
    ("no plan and no buffer", b"", 0, 1),
    ("a good plan, no buffer", BASE, 0, 21),
    ("a good plan, 17 bytes", BASE, 17, 21),
    ("a good plan, 94 bytes", BASE, 94, 21),
    ("a good plan, 96 bytes", BASE, 96, 21),
    ("a good plan, 97 bytes", BASE, 97, 21),
    ("a good plan, 98 bytes", BASE, 98, 0),
    ("the largest, 8,862 bytes", LARGEST_PLAN, 8862, 21),
    ("the largest, 8,893 bytes", LARGEST_PLAN, 8893, 21),
    ("the largest, 8,894 bytes", LARGEST_PLAN, 8894, 0),
]

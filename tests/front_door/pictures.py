"""The window in a terminal and as SVG, and the timeline: what is drawn."""

import os
import re
from xml.etree import ElementTree

from call_bytes import TICK, request
from edges.edge_maker import BASE
from front_door.command import ROOT, trouble
from front_door.picture_files import (
    LENT, LISTING, ONE_SLOT, Played, colours, drawn)
from simulator.listing import simulate

UTF8 = dict(os.environ, PYTHONIOENCODING="utf-8")
ASCII = dict(os.environ, PYTHONIOENCODING="ascii")

# Flow 0 holds 1 at position 1 and 2 from 2 on: its booking of 4 and its
# credit dated 4 make up for each other.
AFTER_7 = """\
after call 7 of 7: current position CP = 1, slot 1, in frame 0
F = 4, W = 2, T = 8, N = 4; a letter or digit is the flow that booked

head      0  |.001|
               ^ CP
newest    4  |0...|

Holdings by slot, head frame first: '█' is all of the flow's cells, ' ' none
flow 0: share 2, holds 1 of 2 cells now, at most 2, none left to book with
             | ▄██|████|
flow 1: share 2, holds 0 of 2 cells now, at most 1
             |   ▄|▄▄▄▄|
"""
AFTER_3 = """\
after call 3 of 7: current position CP = 0, slot 0, in frame 0
F = 4, W = 2, T = 8, N = 4; a letter or digit is the flow that booked

head      0  |.00.|
              ^ CP
newest    4  |....|

Holdings by slot, head frame first: '#' is all of the flow's cells, ' ' none
flow 0: share 2, holds 0 of 2 cells now, at most 2, none left to book with
             | -##|####|
flow 1: share 2, holds 0 of 2 cells now, at most 0
             |    |    |
"""
LENT_SLOT = """\
head      0  |L...|
              ^ CP, lent to flow 0
newest    4  |....|
"""
FRAME_CHANGE = """\
head      1  |0|
              ^ CP
newest    0  |.|

Holdings by slot, head frame first: '█' is all of the flow's cells, ' ' none
flow 0: share 1, holds 1 of 4 cells now, at most 1
             |▂|▂|
"""


# ---- in the terminal

def terminal(played, expected, *after, env=UTF8):
    """What is wrong with a drawing that has to have these lines."""
    ended = drawn(played, "--window", after=after, env=env).ended
    return trouble(ended) or (expected not in ended.output.decode()
                              and "other drawing: " + ended.output.decode())


def window_after_the_last_call():
    return terminal(LISTING, AFTER_7) or terminal(LISTING, AFTER_7, "007")


def window_after_a_call_without_blocks():
    return terminal(LISTING, AFTER_3, "3", env=ASCII)


def window_of_the_fresh_link():
    return terminal(LISTING, "head      0  |....|\n              ^ CP\n", "0")


def window_with_a_lent_slot():
    return terminal(LENT, LENT_SLOT, "1")


def window_after_a_frame_change():
    return terminal(ONE_SLOT, FRAME_CHANGE)


def dense():
    data = (ROOT / "flights/dense").read_bytes()
    return Played(data, simulate(data))


def dense_window_fits_80_columns():
    """Four frames of 64 slots: four rows of owners, and four for each of the
    16 flows."""
    ended = drawn(dense(), "--window", env=UTF8).ended
    lines = ended.output.decode().splitlines()
    rows = [line for line in lines if re.search(r"\|.{64}\|$", line)]
    wide = [line for line in lines if len(line) > 80]
    return trouble(ended) or wide or (
        len(rows) != 4 + 4 * 16 and "%d rows" % len(rows))


# ---- SVG

def svg(played, *words, **options):
    """What pictures.py wrote as SVG, read, or what is wrong."""
    done = drawn(played, *words, **options)
    wrong = trouble(done.ended, output=b"", says="play: ")
    return None if wrong else ElementTree.fromstring(done.text), wrong


def all_of(root, tag):
    return list(root.iter("{http://www.w3.org/2000/svg}" + tag))


def window_as_svg():
    """Owners by position are 0, 0, 1 and 0; then come the numbers of both
    curves.  Eight slots are 80 wide each, from 112 on: flow 0's curve rises
    where slots 1 and 2 begin."""
    root, wrong = svg(LISTING, "--svg", "OUT")
    if wrong:
        return wrong
    texts = [text.text for text in all_of(root, "text")]
    numbers = [text.text for text in all_of(root, "text")
               if text.get("text-anchor") == "middle"]
    curve = next(path.get("d") for path in all_of(root, "path")
                 if path.get("fill"))
    for found, expected in (
            (numbers, ["0", "0", "1", "0", "0", "1"]),
            ("CP 1" in texts, True), ("newest 4 to 7" in texts, True),
            (re.findall(r"H(\d+)", curve), ["192", "272", "752"]),
            (all_of(root, "title")[0].text, "calls after call 7 of 7")):
        if found != expected:
            return "%r for %r" % (found, expected)
    return None


def marks(root, fill):
    """The places of marks of a colour in the rows, and whether each is
    pale."""
    return [(float(rect.get("x")), float(rect.get("y")),
             rect.get("fill-opacity") is not None)
            for rect in all_of(root, "rect") if rect.get("fill") == fill
            and rect.get("stroke") and float(rect.get("x")) > 70]


def wedges(root):
    """Where the refusals in the rows point to."""
    found = [re.match(r"M([\d.]+) ([\d.]+) h7 l-3.5 7 z", path.get("d"))
             for path in all_of(root, "path")]
    return [(float(place[1]) + 3.5, float(place[2]) + 1) for place in found
            if place and float(place[1]) > 60]


def timeline():
    """Slot 1 has come up for flow 0.  Still to come are 2 and 4 of flow 0, and
    3 of flow 1.  A slot is 24 wide, from 70 on, and a flow 14 high, from 64
    on; a mark is half a pixel further in.  Call 3 of flow 0 is refused in slot
    0, whose middle is at 82."""
    root, wrong = svg(LISTING, "--timeline", "OUT")
    if wrong:
        return wrong
    for found, expected in (
            (marks(root, colours.fill(0)), [
                (94.5, 64.5, False), (118.5, 64.5, True),
                (166.5, 64.5, True)]),
            (marks(root, colours.fill(1)), [(142.5, 78.5, True)]),
            (wedges(root), [(82, 64)]),
            (all_of(root, "desc")[0].text, "flow 0: 3 booked, 0 lent, "
             "1 refused; flow 1: 1 booked, 0 lent, 0 refused; idle: 0")):
        if found != expected:
            return "%r for %r" % (found, expected)
    return None


def axis(root):
    """The numbers of slots, each with the middle that it stands at."""
    return [(int(text.text), float(text.get("x")))
            for text in all_of(root, "text")
            if text.get("text-anchor") == "middle"]


def timeline_axis():
    """Slots 0 to 4 are 24 wide: each has its number.  Of 880 slots, 4 wide in
    bands of 256, every tenth has: 26 in the first band, as 0 to 250; the
    second begins with slot 256, so that 260 stands at 70 + 4 * 4 + 2."""
    short, wrong = svg(LISTING, "--timeline", "OUT")
    if wrong:
        return wrong
    data = (ROOT / "flights/dense").read_bytes()
    long, wrong = svg(Played(data, simulate(data)), "--timeline", "OUT")
    if wrong:
        return wrong
    numbers = axis(long)
    steps = {after[0] - before[0]
             for before, after in zip(numbers, numbers[1:])}
    for found, expected in (
            (axis(short), [(slot, 82 + 24 * slot) for slot in range(5)]),
            (numbers[0], (0, 72)), (numbers[26], (260, 88)),
            (steps, {10})):
        if found != expected:
            return "%r for %r" % (found, expected)
    return None


def timeline_with_refusals_of_no_flow():
    """Flow 7 is none of the plan's: a row of its own, the fourth, below the
    two flows and the idle slots.  In slot 1 flow 0 is refused twice, which is
    one mark."""
    played = Played(
        BASE + request(9, 7) + TICK + request(9, 0, 5, 1)
        + request(9, 0, 6, 1), ["P 0", "R 8", "T -", "R 24", "R 24"])
    root, wrong = svg(played, "--timeline", "OUT")
    texts = [] if wrong else [text.text for text in all_of(root, "text")]
    return wrong or wedges(root) != [(82, 64 + 3 * 14), (106, 64)] and (
        "%s" % wedges(root)) or next(
        (words + " is missing" for words in ("refused: 3", "no flow", "idle")
         if words not in texts), None) or (
        "; of no flow: 1 refused; idle: 1" not in all_of(root, "desc")[0].text
        and "another description")


def timeline_with_a_lent_slot():
    root, wrong = svg(LENT, "--timeline", "OUT")
    texts = [] if wrong else [text.text for text in all_of(root, "text")]
    return wrong or next(
        (words + " is missing" for words in (
            "booked: 1", "booked, still to come: 0", "lent: 1", "idle: 1",
            "refused: 0") if words not in texts), None) or (
        # Slot 0, lent to flow 0, is a lower mark than slot 2, booked by flow 1.
        (marks(root, colours.fill(0)), marks(root, colours.fill(1)))
        != ([(70.5, 70.5, False)], [(118.5, 78.5, False)])
        and "%s" % marks(root, colours.fill(0)))


def odd_names():
    """A name is no part of the SVG's own text."""
    root, wrong = svg(LISTING, "--svg", "OUT", name="<b>&'\x01")
    return wrong or all_of(root, "title")[0].text != (
        "<b>&'? after call 7 of 7") and "another title"


# ---- colours

def colours_apart():
    """In grey each fill differs from the next one by 8 of 100 at least, and a
    number has a contrast of 4.5 on its flow's fill."""
    greys = sorted(116 * colours.luminance(fill) ** (1 / 3) - 16
                   for fill in colours.FILLS)
    close = [pair for pair in zip(greys, greys[1:]) if pair[1] - pair[0] < 8]
    faint = [flow for flow in range(16) if colours.contrast(
        colours.fill(flow), colours.ink(flow)) < 4.5]
    marks = {(colours.fill(flow), colours.barred(flow)) for flow in range(16)}
    return (close or faint or len(marks) != 16) and "%r %r" % (close, faint)


TESTS = (
    window_after_the_last_call, window_after_a_call_without_blocks,
    window_of_the_fresh_link, window_with_a_lent_slot,
    window_after_a_frame_change, dense_window_fits_80_columns,
    window_as_svg, timeline, timeline_axis, timeline_with_refusals_of_no_flow,
    timeline_with_a_lent_slot, odd_names,
    colours_apart,
)


def tests(programs):
    for test in TESTS:
        yield "pictures: " + test.__name__.replace("_", " "), test

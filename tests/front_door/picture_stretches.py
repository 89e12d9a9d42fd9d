"""Timelines and pages of a stretch, and of files that are longer than a
picture."""

import json
import tempfile

from call_bytes import TICK, credit, plan, request
from front_door.command import trouble
from front_door.picture_files import Played, colours, drawn
from front_door.picture_pages import Reader
from front_door.pictures import all_of, marks, svg, wedges
from front_door.show_tools import page, timeline
from simulator.listing import simulate

# F = 4 and T = 8, a flow with share 1 and 2 cells.  In slots 0, 4, 8 and 12
# it asks for a tile, and is granted the next slot; the cell is credited a slot
# after that; in slots 2, 6, 10 and 14 it asks again, past its share.
PLAN = plan(4, 2, 4, [(1, 1, 1, 9)])


def frame(number):
    """The calls of frame `number`, from its first slot on."""
    now = 4 * number % 8
    return b"".join([
        request(9, 0, number, now), TICK, TICK, credit(0, (now + 3) % 8),
        request(9, 1, 0, now + 2), TICK, TICK])


def frames(count):
    data = PLAN + b"".join(map(frame, range(count)))
    return Played(data, simulate(data))


FOUR = frames(4)                # slots 0 to 16, 28 calls


def timeline_of_a_stretch():
    """Slots 5 to 10: 5 and 9 are flow 0's, and in 6 and 10 a call of no flow
    is refused; a slot is 24 wide, from 70 on."""
    root, wrong = svg(FOUR, "--timeline", "OUT", "--from", "5", "--to", "10")
    if wrong:
        return wrong
    for found, expected in (
            (marks(root, colours.fill(0)), [(70.5, 64.5, False),
                                            (166.5, 64.5, False)]),
            (wedges(root), [(106, 92), (202, 92)]),
            (all_of(root, "text")[0].text, "calls: slots 5 to 10"),
            (all_of(root, "title")[0].text, "Slots 5 to 10 of calls by flow"),
            (all_of(root, "desc")[0].text, "flow 0: 2 booked, 0 lent, 0 "
             "refused; of no flow: 2 refused; idle: 4")):
        if found != expected:
            return "%r for %r" % (found, expected)
    return None


def timeline_up_to_the_end():
    """From slot 13 on: it is booked in slot 12, before the stretch."""
    root, wrong = svg(FOUR, "--timeline", "OUT", "--from", "13")
    return wrong or all_of(root, "desc")[0].text != (
        "flow 0: 1 booked, 0 lent, 0 refused; of no flow: 1 refused; idle: 3"
    ) and all_of(root, "desc")[0].text


def flight(*words):
    done = drawn(FOUR, "--page", "OUT", *words)
    wrong = trouble(done.ended, output=b"", says="out' is written")
    return wrong or json.loads(Reader(done.text).flight)


def page_of_a_stretch():
    """Slot 5 comes up with call 9, 7 calls to a frame; before it slot 4 is
    current, slot 5 is booked in it, and one cell is held from there on.  The
    last call in slot 9 is call 16, before the tick of call 17."""
    found = flight("--from", "5", "--to", "9")
    start = found["start"]
    for one, other in (
            (start["calls"], 8), (start["slot"], 4), (start["first"], 4),
            (start["owners"], [None, 0, None, None, None, None, None, None]),
            (start["holdings"], [[0] + 7 * [1]]), (start["granted"], [2]),
            (found["whole"], False),
            ("".join(line[0] for line in found["trace"]), "TTCRTTFGT")):
        if one != other:
            return "%r for %r" % (one, other)
    whole = flight()
    return (whole["whole"], whole["start"]["calls"]) != (True, 0) and (
        "%s" % whole["start"])


def longer_than_a_picture():
    """The first part is drawn, and a sentence says so."""
    data = PLAN + 60000 * TICK
    played = Played(data, ["P 0", *60000 * ["T -"]])
    with tempfile.TemporaryDirectory() as folder:
        line = drawn(played, "--timeline", folder + "/t").ended
        shown = drawn(played, "--page", folder + "/p").ended
        part = drawn(played, "--page", folder + "/q", "--from", "20000",
                     "--to", "30000").ended
    return trouble(line, says="t' is written", then="play: the file goes on "
                   "after slot 16383, and a timeline has at most 16384 slots: "
                   "--from 16384 draws the next") or trouble(
        shown, says="p' is written", then="play: the file goes on after call "
        "50000, and a page has at most 50000 calls: --from 50000 shows what "
        "follows") or trouble(part, says="q' is written") or (
        (timeline.MOST, page.MOST) != (16384, 50000) and "other bounds")


TESTS = (timeline_of_a_stretch, timeline_up_to_the_end, page_of_a_stretch,
         longer_than_a_picture)


def tests(programs):
    for test in TESTS:
        yield "pictures: " + test.__name__.replace("_", " "), test

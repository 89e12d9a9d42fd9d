"""Pictures and their words: all words stand within a picture, and a short
file fills it."""

import call_bytes
from edges.edge_maker import TICK, lend
from front_door.command import ROOT
from front_door.picture_files import LENT, LISTING, Played
from front_door.pictures import all_of, svg
from simulator.listing import simulate

LETTER = 0.6                    # a letter's width at size 1
LONG = "a-very-long-name-of-a-flight-" * 8      # 232 letters

# 64 slots to a frame, and the last one of the head frame is lent: CP stands
# at the right edge.
AT_THE_EDGE = Played(
    call_bytes.plan(64, 4, 255, [(64, 255, 1, 9)]) + 63 * TICK + lend(1),
    ["P 0", *63 * ["T -"], "L 0"], ["--allcalls"])


def flight(name):
    data = (ROOT / "flights" / name).read_bytes()
    return Played(data, simulate(data))


def span(text):
    """Where a text begins and ends, about."""
    x, wide = float(text.get("x")), LETTER * float(
        text.get("font-size")) * len(text.text)
    anchor = text.get("text-anchor")
    left = x - wide * {"end": 1, "middle": 0.5}.get(anchor, 0)
    return left, left + wide


def outside(played, option, name):
    """The words that don't stand within a picture, or what else is wrong."""
    root, wrong = svg(played, option, "OUT", name=name)
    if wrong:
        return wrong
    width = float(root.get("width"))
    return [text.text for text in all_of(root, "text")
            if span(text)[0] < 0 or span(text)[1] > width]


def words_stand_within():
    for played in (LISTING, LENT, AT_THE_EDGE, flight("sparse"),
                   flight("dense")):
        for option in ("--svg", "--timeline"):
            for name in ("calls", LONG):
                wrong = outside(played, option, name)
                if wrong:
                    return "%s of %s: %s" % (option, name[:10], wrong)
    return None


def long_names_keep_both_ends():
    """In the heading; the title has the whole name."""
    for option, rest in (("--svg", " after call 7 of 7"),
                         ("--timeline", ": 1 slot came up")):
        root, wrong = svg(LISTING, option, "OUT", name=LONG)
        heading = wrong or all_of(root, "text")[0].text
        if wrong or not (heading.startswith("a-very-") and "..." in heading
                         and heading.endswith("a-flight-" + rest)):
            return wrong or heading
        if LONG not in all_of(root, "title")[0].text:
            return "the title is cut"
    return None


def ticks(count):
    """A file of ticks alone: its timeline has this many slots and slot 0."""
    return Played(call_bytes.plan(4, 2, 4, [(2, 2, 1, 9)]) + count * TICK,
                  ["P 0", *count * ["T -"]])


def short_files_fill_the_picture():
    """A slot is at most 24 wide and at least 4, and a band at most 1,024.
    Labels take 70, and 6 are left at the right; but no picture is narrower
    than 560.  5 slots of 24 are 120; 1,024 / 41 is 24.97, 1,024 / 101 is
    10.1, and a band has 256 slots at most."""
    for count, slot, width in ((4, 24, 560), (40, 24, 70 + 41 * 24 + 6),
                               (100, 10, 70 + 101 * 10 + 6),
                               (255, 4, 1100), (600, 4, 1100)):
        root, wrong = svg(ticks(count), "--timeline", "OUT")
        idle = wrong or [rect for rect in all_of(root, "rect")
                         if rect.get("fill") == "#b8b8b8"]
        found = wrong or (float(idle[-1].get("width")),
                          float(root.get("width")))
        if found != (slot, width):
            return "%d ticks: %s" % (count, found)
    return None


TESTS = (words_stand_within, long_names_keep_both_ends,
         short_files_fill_the_picture)


def tests(programs):
    for test in TESTS:
        yield "pictures: " + test.__name__.replace("_", " "), test

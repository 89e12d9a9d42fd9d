"""./check-log --ahead: tiles that may leave before their booked slots."""

import os

from edges.edge_maker import ask, edge, plan
from edges.pairs import ticks
from front_door.check_log import (
    ALIKE, DEAD, DIFFER, HAD_IT, MOVED_BY_ONE, NOT_COMPARED, SPARSE, LogTree,
    lines)
from front_door.command import ROOT, redirected, start, trouble
from front_door.tree import named

# What is booked in slots 1, 2 and so on, what left in them, and the lines that
# are printed where each tile left in time.
IN_TIME = [
    ("0 1 -", "0 1 -",
     ["ahead: 2 tiles left at or before their slots, 0 ahead; 0 slots gained",
      "flow 0: 1 tile, 0 ahead; 0 slots gained, a mean of 0.00 and at most 0",
      "flow 1: 1 tile, 0 ahead; 0 slots gained, a mean of 0.00 and at most 0"
      ]),
    ("- 0", "0 -",
     ["ahead: 1 tile left at or before its slot, 1 ahead; 1 slot gained",
      "flow 0: 1 tile, 1 ahead; 1 slot gained, a mean of 1.00 and at most 1"]),
    # Slots 2 and 3 are idle; both tiles of flow 0 leave in them, the first
    # first, and so four slots early and four.
    ("1 - - 1 - 0 0", "1 0 0 1 - - -",
     ["ahead: 4 tiles left at or before their slots, 2 ahead; 8 slots gained",
      "flow 0: 2 tiles, 2 ahead; 8 slots gained, a mean of 4.00 and at most 4",
      "flow 1: 2 tiles, 0 ahead; 0 slots gained, a mean of 0.00 and at most 0"
      ]),
    # One ahead, then two in their slots.
    ("- 5 5 5", "5 - 5 5",
     ["ahead: 3 tiles left at or before their slots, 1 ahead; 1 slot gained",
      "flow 5: 3 tiles, 1 ahead; 1 slot gained, a mean of 0.33 and at most 1"
      ]),
    # By turns: 10 is another flow than 1.
    ("- - - 1 10 1", "1 10 1 - - -",
     ["ahead: 3 tiles left at or before their slots, 3 ahead; 9 slots gained",
      "flow 1: 2 tiles, 2 ahead; 6 slots gained, a mean of 3.00 and at most 3",
      "flow 10: 1 tile, 1 ahead; 3 slots gained, a mean of 3.00 and at most 3"
      ]),
    # From slot 1 to 256, which is as far as can be booked.
    ("- " * 255 + "0", "0" + " -" * 255,
     ["ahead: 1 tile left at or before its slot, 1 ahead; 255 slots gained",
      "flow 0: 1 tile, 1 ahead; 255 slots gained, a mean of 255.00 and at "
      "most 255"]),
    ("- -", "- -",
     ["ahead: 0 tiles left at or before their slots, 0 ahead; 0 slots gained"
      ]),
]


def of(faults, well, tiles):
    """The first line where something is wrong."""
    return "differ: %s; %d of %s left at or before %s" % (
        faults, well, "1 tile" if tiles == 1 else "%d tiles" % tiles,
        "its slot" if tiles == 1 else "their slots")


def in_its_slot(flow):
    """The line of a flow with one tile, which left in its slot."""
    return "flow %d: 1 tile, 0 ahead; 0 slots gained, a mean of 0.00 and at " \
        "most 0" % flow


UNBOOKED = ("%sflow %d left, and no tile of it waits that was booked: it left "
            "twice, or was never booked")
TWICE = ("slot %d: flow %d left, and its tile of this slot had left in slot "
         "%d: it left twice, or another in its place")
NO_TILE = ("flow %d: none booked, 1 left wrongly: look at who sends under "
           "this number, and whether its requests were refused")
ONE_MORE = ("flow 0: 1 booked, 1 left in time, 1 wrongly: 1 more than booked: "
            "look at what its board sends")
ONE_AHEAD = ("flow 0: 1 tile, 1 ahead; 1 slot gained, a mean of 1.00 and at "
             "most 1")

# The bad histories, and the lines that name what is wrong with each.
BAD = [
    ("late", "0 - 1", "- 0 1",
     [of("1 fault", 1, 2), "flow 0: 1 booked, 1 left wrongly", in_its_slot(1),
      "slot 2: flow 0's tile of slot 1 left, 1 slot late"]),
    ("late by three, before the next that is booked", "0 - - - 0", "- - - 0 0",
     [of("1 fault", 1, 2), "flow 0: 2 booked, 1 left in time, 1 wrongly",
      "slot 4: flow 0's tile of slot 1 left, 3 slots late"]),
    ("in another's slot", "1 - 0", "0 1 -",
     [of("2 faults", 0, 2), "flow 0: 1 booked, 1 left wrongly",
      "flow 1: 1 booked, 1 left wrongly",
      "slot 1: it was booked for flow 1, and flow 0's tile of slot 3 left in "
      "it",
      "slot 2: flow 1's tile of slot 1 left, 1 slot late"]),
    ("in another's slot, and that one's not at all", "- 1 0", "- 0 -",
     [of("2 faults", 0, 2), "flow 0: 1 booked, 1 left wrongly",
      "flow 1: 1 booked, none left: look at its cable",
      "slot 2: it was booked for flow 1, and flow 0's tile of slot 3 left in "
      "it",
      "slot 2: flow 1's tile did not leave at all"]),
    ("late, in another's slot", "0 1 -", "- 0 1",
     [of("2 faults", 0, 2), "flow 0: 1 booked, 1 left wrongly",
      "flow 1: 1 booked, 1 left wrongly",
      "slot 2: it was booked for flow 1, and flow 0's tile of slot 1 left in "
      "it",
      "slot 3: flow 1's tile of slot 2 left, 1 slot late"]),
    ("twice, ahead and in its slot", "- - 0", "- 0 0",
     [of("1 fault", 1, 1), ONE_MORE, TWICE % (3, 0, 2)]),
    ("twice, ahead and ahead again", "- - 0", "0 0 -",
     [of("1 fault", 1, 1), ONE_MORE, UNBOOKED % ("slot 2: ", 0)]),
    ("twice, in its slot and after it", "0 -", "0 0",
     [of("1 fault", 1, 1), ONE_MORE, UNBOOKED % ("slot 2: ", 0)]),
    # The tile of slot 2 left; the one of slot 4 may not take its slot, which
    # is not idle.
    ("in its own earlier slot", "- 0 - 0", "0 0 - -",
     [of("2 faults", 1, 2),
      "flow 0: 2 booked, 1 left in time, 1 wrongly, 1 never" + HAD_IT,
      TWICE % (2, 0, 1), "slot 4: flow 0's tile did not leave at all"]),
    ("not at all", "- 0 1", "- - 1",
     [of("1 fault", 1, 2), "flow 0: 1 booked, none left: look at its cable",
      in_its_slot(1), "slot 2: flow 0's tile did not leave at all"]),
    ("no longer", "0 1 - 0 0", "0 1 - - -",
     [of("2 faults", 2, 4),
      "flow 0: 3 booked, 1 left in time, 2 never: none left after slot 1: "
      "look at its cable", in_its_slot(1),
      "slot 4: flow 0's tile did not leave at all",
      "slot 5: flow 0's tile did not leave at all"]),
    ("nothing at all", "0 1 -", "- - -",
     [of("2 faults", 0, 2), DEAD, "flow 0: 1 booked, none left",
      "flow 1: 1 booked, none left",
      "slot 1: flow 0's tile did not leave at all",
      "slot 2: flow 1's tile did not leave at all"]),
    ("never booked", "- 1", "0 1",
     [of("1 fault", 1, 1), NO_TILE % 0, in_its_slot(1),
      UNBOOKED % ("slot 1: ", 0)]),
    ("never booked, in another's slot", "1", "0",
     [of("2 faults", 0, 1), NO_TILE % 0,
      "flow 1: 1 booked, none left: look at its cable",
      UNBOOKED % ("slot 1: it was booked for flow 1, and ", 0),
      "slot 1: flow 1's tile did not leave at all"]),
    # An idle slot that is used carries the first tile that waits, which is
    # the one that was missed.
    ("a tile that was missed goes first", "0 - 0", "- 0 -",
     [of("2 faults", 0, 2),
      "flow 0: 2 booked, 1 left wrongly, 1 never" + HAD_IT,
      "slot 2: flow 0's tile of slot 1 left, 1 slot late",
      "slot 3: flow 0's tile did not leave at all"]),
    ("the streams end early", "- 0 -", "0 -",
     [of("SENT ends early", 1, 1),
      "SENT ends after slot 2 and BOOKED after slot 3: 1 slot, 0 booked, "
      "can't be compared", ONE_AHEAD]),
    # A sentence for all tiles that come later.
    ("the streams end before tiles", "0 1 0 0", "0",
     [of("SENT ends early", 1, 1),
      "SENT ends after slot 1 and BOOKED after slot 4: 3 slots, 3 booked, "
      "can't be compared", in_its_slot(0)]),
    ("the listing ends early", "- 0", "0 - -",
     [of("BOOKED ends early", 1, 1),
      "BOOKED ends after slot 2 and SENT after slot 3: 1 slot, 0 with a "
      "stream, can't be compared", ONE_AHEAD]),
    # A log that begins with slot 2 looks like tiles that are all one ahead.
    ("the streams begin a slot late", "- 0 - 0 - 1", "0 - 0 - 1 -",
     [of("SENT seems to begin a slot late", 3, 3), MOVED_BY_ONE % 2,
      "flow 0: 2 tiles, 2 ahead; 2 slots gained, a mean of 1.00 and at most 1",
      "flow 1: 1 tile, 1 ahead; 1 slot gained, a mean of 1.00 and at most 1"]),
    ("the streams begin a slot early", "0 - 0 - 1 -", "- 0 - 0 - 1",
     [of("3 faults, SENT seems to begin a slot early", 0, 3), MOVED_BY_ONE % 0,
      "flow 0: 2 booked, 2 left wrongly", "flow 1: 1 booked, 1 left wrongly",
      "slot 2: flow 0's tile of slot 1 left, 1 slot late",
      "slot 4: flow 0's tile of slot 3 left, 1 slot late",
      "slot 6: flow 1's tile of slot 5 left, 1 slot late"]),
    # Slot 257 can't be booked yet in slot 1, since a window has 256 positions.
    ("before its slot could be booked", "- " * 256 + "0", "0" + " -" * 256,
     [of("2 faults", 0, 1),
      "flow 0: 1 booked, 1 left wrongly, 1 never" + HAD_IT,
      UNBOOKED % ("slot 1: ", 0),
      "slot 257: flow 0's tile did not leave at all"]),
    ("256 slots late", "0" + " -" * 256, "- " * 256 + "0",
     [of("1 fault", 0, 1), "flow 0: 1 booked, 1 left wrongly",
      "slot 257: flow 0's tile of slot 1 left, 256 slots late"]),
    # What is later than that is a tile that never left, and one too many.
    ("257 slots late", "0" + " -" * 257, "- " * 257 + "0",
     [of("2 faults", 0, 1),
      "flow 0: 1 booked, 1 left wrongly, 1 never" + HAD_IT,
      "slot 1: flow 0's tile did not leave at all",
      UNBOOKED % ("slot 258: ", 0)]),
]

WRONG = [
    (["--ahead"], "two files are compared, BOOKED and SENT, and 0 are named"),
    (["--ahead", "a"], "and 1 is named"),
    (["--ahead", "--slots", "65", "a", "b"], "1 to 64, and not '65'"),
    (["--ahead", "--slots"], "1 to 64, and not ''"),
    (["--ahead", "--far", "a", "b"], "there is no option '--far'"),
    (["--ahead", "-", "-"], "only one of the files can be standard input"),
]


# F = 4, share 1: slots 1 and 4.  With the calls it is known in which slot the
# second tile is due (rule 22.2): that of its request where its departure has
# gone by, else its departure's; and it leaves in a later one (rule 24.2).  Of
# each SENT what is told of a slot, or None.
EARLY = ("slot 2 (frame 0, its slot 2): flow 0's tile of slot 4 left, and it "
         "is due in slot %d: it may leave from the next one on")
COMING = [
    ([(ask(0), "G 1"), (ask(0), "G 4"), *ticks(0, "-", "-", 0)],
     (("0 0 - -", None), ("0 - 0 -", None))),
    ([(ask(0), "G 1"), *ticks(0), (ask(0), "G 4"), *ticks("-", "-", 0)],
     (("0 0 - -", None), ("0 - - 0", None))),
    ([(ask(0), "G 1"), *ticks(0, "-"), (ask(0), "G 4"), *ticks("-", 0)],
     (("0 0 - -", EARLY % 2), ("0 - 0 -", None))),
    # The tile of slot 1 has gone by in slot 2, and one of slot 3 has not.
    ([(ask(0), "G 1"), *ticks(0, "-"), (ask(0, departure=1), "G 4"),
      *ticks("-", 0)], (("0 0 - -", EARLY % 2), ("0 - 0 -", None))),
    ([(ask(0), "G 1"), (ask(0, departure=2), "G 4"), *ticks(0, "-", "-", 0)],
     (("0 0 - -", EARLY % 2), ("0 - 0 -", None))),
    ([(ask(0), "G 1"), (ask(0, departure=3), "G 4"), *ticks(0, "-", "-", 0)],
     (("0 0 - -", EARLY % 3), ("0 - - 0", None))),
]


class AheadTree(LogTree):
    def compare_ahead(self, booked, sent, *words, granted=0):
        """On a listing of these slots, each of which is granted before, and of
        so many that are granted besides."""
        slots = booked.split()
        listing = "P 0\n" + "G 1\n" * (
            len(slots) - slots.count("-") + granted) + "".join(
                "T %s\nC\n" % flow for flow in slots)
        return self.start(
            "--ahead", *words, self.write("booked", listing), "-",
            input="".join(flow + "\n" for flow in sent.split()).encode())


# ---- in time, or not

def in_time(tree):
    for booked, sent, printed in IN_TIME:
        wrong = trouble(tree.compare_ahead(booked, sent), ALIKE,
                        lines(printed))
        if wrong:
            return "%s against %s: %s" % (booked, sent, wrong)
    return None


def bad_histories(tree):
    for name, booked, sent, printed in BAD:
        wrong = trouble(tree.compare_ahead(booked, sent), DIFFER,
                        lines(printed))
        if wrong:
            return "%s: %s" % (name, wrong)
    return None


def none_ahead_is_as_without(tree):
    """What is alike slot by slot is in time too."""
    booked, sent = "0 1 - 0 2", "0 1 - 0 2"
    return (trouble(tree.compare(booked, sent), ALIKE)
            or trouble(tree.compare_ahead(booked, sent), ALIKE))


def without_the_word(tree):
    """A tile that left ahead differs where --ahead is not said."""
    return trouble(tree.compare("- 0", "0 -"), DIFFER)


def twenty_are_told(tree):
    """Of 22 tiles that did not leave, in the order of their slots, which are
    named by their frames; the one that left is found first."""
    ended = tree.compare_ahead("3 " * 22 + "-", "- " * 22 + "5", "--slots",
                               "4")
    return trouble(ended, DIFFER, lines(
        [of("23 faults", 0, 22),
         "flow 3: 22 booked, none left: look at its cable", NO_TILE % 5]
        + ["slot %d (frame %d, its slot %d): flow 3's tile did not leave at "
           "all" % (slot, slot // 4, slot % 4) for slot in range(1, 21)]
        + ["and 3 more"]))


def frames_are_named(tree):
    """Before --ahead or after it."""
    told = lines([of("2 faults", 0, 1),
                  "flow 1: 1 booked, none left: look at its cable",
                  NO_TILE % 7,
                  UNBOOKED % ("slot 1 (frame 1, its slot 0): ", 7),
                  "slot 2 (frame 2, its slot 0): flow 1's tile did not leave "
                  "at all"])
    booked = tree.write("listing", "P 0\nG 1\nT -\nT 1\n")
    return trouble(tree.compare_ahead("- 1", "7 -", "--slots", "1"), DIFFER,
                   told) or trouble(
        tree.start("--slots", "1", "--ahead", booked, "-", input=b"7\n-\n"),
        DIFFER, told)


def slots_to_come(tree):
    """Always told; a tile whose slot the listing doesn't come to can't be told
    from one that was not booked."""
    good = tree.compare_ahead("1", "1", granted=2)
    bad = tree.compare_ahead("- 1", "0 1", granted=1)
    return trouble(good, ALIKE, lines([
        "ahead: 1 tile left at or before its slot, 0 ahead; 0 slots gained",
        in_its_slot(1),
        "2 granted slots had not come up at the end of BOOKED: let it tick on "
        "until each has"])) or trouble(bad, DIFFER, lines([
            of("1 fault", 1, 1), NO_TILE % 0, in_its_slot(1),
            UNBOOKED % ("slot 1: ", 0),
            "1 granted slot had not come up at the end of BOOKED: let it tick "
            "on until each has"]))


def before_it_comes(tree):
    """Told where the calls are named, and only there."""
    for steps, sendings in COMING:
        calls = edge("calls", plan(4, 2, (1, 8)), *steps)
        files = tree.write("booked", "\n".join(calls.lines) + "\n"), "-"
        words = "--calls", tree.write("calls", calls.data)
        for sent, told in sendings:
            data = "\n".join(sent.split()).encode()
            ended = tree.start("--ahead", *words, *files, input=data)
            wrong = trouble(ended, DIFFER if told else ALIKE) or (
                told and told not in ended.output.decode().splitlines()
                and ended.output.decode()) or trouble(
                    tree.start("--ahead", *files, input=data), ALIKE)
            if wrong:
                return "%s of %s: %s" % (sent, calls.lines, wrong)
    return None


def the_sparse_flight(tree):
    """12 tiles; the last leaves in the idle slot before its own."""
    booked = start([tree.program], input=SPARSE.read_bytes()).output
    sent = (ROOT / "flights/sparse.sent").read_text().split()
    last = max(slot for slot, flow in enumerate(sent) if flow != "-")
    sent[last - 1:last + 1] = [sent[last], sent[last - 1]]
    ended = tree.start("--ahead", tree.write("booked", booked), "-",
                       input="\n".join(sent).encode())
    first = ended.output.split(b"\n")[0]
    return trouble(ended) or (
        first != b"ahead: 12 tiles left at or before their slots, 1 ahead; 1 "
        b"slot gained" and "it says %r" % first)


# ---- what can't be compared

def wrong_words(tree):
    for words, says in WRONG:
        wrong = trouble(tree.start(*words), NOT_COMPARED, b"", says)
        if wrong:
            return "%s: %s" % (words, wrong)
    return None


def no_listing(tree):
    """As without --ahead; and the listing of a file with the pairs themselves,
    by either program, is none of the bookings."""
    sent = tree.write("sent", "0\n")
    for data, says in (
            (b"P 0\nL 0\nC\nT 0\n", "line 2 of standard input is 'L 0', "
             "which is no line of domelink's: a lend of allcalls; with "
             "--ahead BOOKED is the listing of the calls without the lends "),
            (b"P 0\nG 1\nR 16\nC\nT 0\n", "line 3 of standard input is 'R "
             "16', a record that is no call of domelink's: is it a lend that "
             "sends ahead? with --ahead BOOKED is the listing of the calls "
             "without the lends and credits that send ahead"),
            (b"P 0\nG 1\n", "has no T line")):
        wrong = trouble(tree.start("--ahead", "-", sent, input=data),
                        NOT_COMPARED, b"", says)
        if wrong:
            return "%r: %s" % (data, wrong)
    return None


def output_is_lost(tree):
    booked, sent = tree.write("booked", "P 0\nT 0\n"), tree.write("s", "0\n")
    if not os.path.exists("/dev/full"):
        return None
    return trouble(start(redirected(">/dev/full", tree.command, "--ahead",
                                    booked, sent)), NOT_COMPARED, b"",
                   "output was lost")


TESTS = (
    in_time, bad_histories, none_ahead_is_as_without, without_the_word,
    twenty_are_told, frames_are_named, slots_to_come, before_it_comes,
    the_sparse_flight, wrong_words, no_listing, output_is_lost,
)


def tests(programs):
    for name, test in named(AheadTree, TESTS, programs):
        yield name.replace("log:", "log --ahead:"), test

"""./check-log: what is booked against what left, slot by slot."""

import os
import sys

from front_door.command import ROOT, redirected, start, trouble
from front_door.tree import Tree, named

ALIKE, DIFFER, NOT_COMPARED = range(3)          # exit statuses
SPARSE = ROOT / "flights/sparse"

HAD_IT = ": look at whether its board had the tile by then"
DEAD = ("nothing left at all: look at the link, its cable and its power, or "
        "at where SENT was taken")
MOVED_BY_ONE = ("moved by one slot SENT agrees: is its first line slot %d? it "
                "has to be slot 1")

# What is booked in slots 1, 2 and so on, what left in them, the exit status
# and the lines that are printed.
COMPARED = [
    ("0 1 -", "0 1 -", ALIKE,
     ["alike: 3 of 3 slots agree, 2 with a stream and 1 idle",
      "flow 0: 1 booked, left in its slot",
      "flow 1: 1 booked, left in its slot"]),
    ("-", "-", ALIKE,
     ["alike: 1 of 1 slot agrees, 0 with a stream and 1 idle"]),
    ("15 15", "15 15", ALIKE,
     ["alike: 2 of 2 slots agree, 2 with a stream and 0 idle",
      "flow 15: 2 booked, all left in their slots"]),
    ("0 1", "0 2", DIFFER,
     ["differ: 1 of 2 slots agrees; BOOKED has 2 and SENT has 2",
      "flow 0: 1 booked, left in its slot",
      "flow 1: 1 booked, none left: look at its cable",
      "flow 2: none booked, 1 left elsewhere: look at who sends under this "
      "number, and whether its requests were refused",
      "slot 2: it was booked for flow 1, and flow 2 left"]),
    # Nothing, and one too many.
    ("0 1 -", "- 1 -", DIFFER,
     ["differ: 2 of 3 slots agree; BOOKED has 3 and SENT has 3",
      "flow 0: 1 booked, none left: look at its cable",
      "flow 1: 1 booked, left in its slot",
      "slot 1: it was booked for flow 0, and nothing left"]),
    ("0 1 -", "0 1 0", DIFFER,
     ["differ: 2 of 3 slots agree; BOOKED has 3 and SENT has 3",
      "flow 0: 1 booked, 1 left in its slot, 1 elsewhere: 1 more than booked: "
      "look at what its board sends",
      "flow 1: 1 booked, left in its slot",
      "slot 3: nobody booked it, and flow 0 left"]),
    # Two that have changed places.
    ("0 1 2 3", "0 2 1 3", DIFFER,
     ["differ: 2 of 4 slots agree; BOOKED has 4 and SENT has 4",
      "flow 0: 1 booked, left in its slot",
      "flow 1: 1 booked, 1 left elsewhere: none in a slot of its own: look at "
      "its board's plan, and at which stream has this number",
      "flow 2: 1 booked, 1 left elsewhere: none in a slot of its own: look at "
      "its board's plan, and at which stream has this number",
      "flow 3: 1 booked, left in its slot",
      "slot 2: it was booked for flow 1, and flow 2 left",
      "slot 3: it was booked for flow 2, and flow 1 left"]),
    # All four ways in one flow: slot 1 in time, slot 3 elsewhere, 5 never.
    ("0 - 0 1 0 0", "0 0 - 1 - 0", DIFFER,
     ["differ: 3 of 6 slots agree; BOOKED has 6 and SENT has 6",
      "flow 0: 4 booked, 2 left in their slots, 1 elsewhere, 1 never"
      + HAD_IT,
      "flow 1: 1 booked, left in its slot",
      "slot 2: nobody booked it, and flow 0 left",
      "slot 3: it was booked for flow 0, and nothing left",
      "slot 5: it was booked for flow 0, and nothing left"]),
    # A cable that comes off, and one slot, which is too few to tell.
    ("0 1 0 1 0", "0 1 - 1 -", DIFFER,
     ["differ: 3 of 5 slots agree; BOOKED has 5 and SENT has 5",
      "flow 0: 3 booked, 1 left in its slot, 2 never: none left after slot 1: "
      "look at its cable",
      "flow 1: 2 booked, all left in their slots",
      "slot 3: it was booked for flow 0, and nothing left",
      "slot 5: it was booked for flow 0, and nothing left"]),
    ("0 1 0", "0 1 -", DIFFER,
     ["differ: 2 of 3 slots agree; BOOKED has 3 and SENT has 3",
      "flow 0: 2 booked, 1 left in its slot, 1 never" + HAD_IT,
      "flow 1: 1 booked, left in its slot",
      "slot 3: it was booked for flow 0, and nothing left"]),
    # A dead link is no dead flow.
    ("0 1 -", "- - -", DIFFER,
     ["differ: 1 of 3 slots agrees; BOOKED has 3 and SENT has 3", DEAD,
      "flow 0: 1 booked, none left",
      "flow 1: 1 booked, none left",
      "slot 1: it was booked for flow 0, and nothing left",
      "slot 2: it was booked for flow 1, and nothing left"]),
    # 1 is not 10, and 0 is not idle.
    ("1", "10", DIFFER,
     ["differ: 0 of 1 slot agrees; BOOKED has 1 and SENT has 1",
      "flow 1: 1 booked, none left: look at its cable",
      "flow 10: none booked, 1 left elsewhere: look at who sends under this "
      "number, and whether its requests were refused",
      "slot 1: it was booked for flow 1, and flow 10 left"]),
    ("-", "0", DIFFER,
     ["differ: 0 of 1 slot agrees; BOOKED has 1 and SENT has 1",
      "flow 0: none booked, 1 left elsewhere: look at who sends under this "
      "number, and whether its requests were refused",
      "slot 1: nobody booked it, and flow 0 left"]),
    # A list that ends early, also where nothing more was booked: a sentence,
    # and what can't be compared counts for no flow.
    ("0 1 -", "0 1", DIFFER,
     ["differ: 2 of 3 slots agree; BOOKED has 3 and SENT has 2",
      "SENT ends after slot 2 and BOOKED after slot 3: 1 slot, 0 booked, "
      "can't be compared",
      "flow 0: 1 booked, left in its slot",
      "flow 1: 1 booked, left in its slot"]),
    ("0 1 2", "", DIFFER,
     ["differ: 0 of 3 slots agree; BOOKED has 3 and SENT has 0",
      "SENT is empty: of 3 slots, 3 booked, none can be compared: look at "
      "whether the list was written"]),
    ("0 1", "0 1 - 4", DIFFER,
     ["differ: 2 of 4 slots agree; BOOKED has 2 and SENT has 4",
      "BOOKED ends after slot 2 and SENT after slot 4: 2 slots, 1 with a "
      "stream, can't be compared",
      "flow 0: 1 booked, left in its slot",
      "flow 1: 1 booked, left in its slot"]),
    # It differs before it ends.
    ("0 1 2", "1", DIFFER,
     ["differ: 0 of 3 slots agree; BOOKED has 3 and SENT has 1",
      "SENT ends after slot 1 and BOOKED after slot 3: 2 slots, 2 booked, "
      "can't be compared",
      "flow 0: 1 booked, none left: look at its cable",
      "flow 1: none booked, 1 left elsewhere: look at who sends under this "
      "number, and whether its requests were refused",
      "slot 1: it was booked for flow 0, and flow 1 left"]),
]

# What is booked and what left, and the slot that its first line seems to be.
MOVED = [
    ("0 1 - 2", "- 0 1 - 2", 0),
    ("0 1 - 2", "- 0 1 -", None),           # two streams are too few to tell
    ("0 1 0 2", "- 0 1 0", 0),
    ("0 1 - 2 3", "1 - 2 3", 2),
    ("0 1 - 2 3", "1 - 2 3 - 7", 2),        # past the end is not looked at
    ("0 1 - 2 3", "1 - 2 1", None),
    # One slot that differs is no shift, and one stream is too few to tell.
    ("0 0 0 0 0", "- 0 0 0 0", None),
    ("- - 1 - -", "- 1 - - -", None),
]

# With --slots: F, the slot that differs, and its name.  Slot s is in frame
# s / F; slot 0 is the first of frame 0.
PLACES = [
    (4, 1, "slot 1 (frame 0, its slot 1)"),
    (4, 3, "slot 3 (frame 0, its slot 3)"),
    (4, 4, "slot 4 (frame 1, its slot 0)"),
    (1, 5, "slot 5 (frame 5, its slot 0)"),
    (64, 130, "slot 130 (frame 2, its slot 2)"),
]

# What no listing is, and words of the sentence.
NO_LISTING = [
    (b"", "is empty, and a listing begins with 'P 0'"),
    (b"P 0\n", "has no T line: no slot came up"),
    (b"P 0\nG 1\nC\nR 12\n", "has no T line"),
    (b"P 6\n", "is the listing of a plan that is refused with 6: it has no "),
    (b"T 0\n", "is no listing of domelink: its first line is 'T 0'"),
    (b"0\n1\n", "its first line is '0', and not 'P 0'"),
    (b"\nP 0\nT 0\n", "its first line is '', and not 'P 0'"),
    (b"P 0\nT 0\nP 0\nT 0\n", "line 3 of "),
    (b"P 0\nT 0\n\n", "line 3 of "),
    (b"P 0\nT\n", "is 'T', which is no line of domelink's"),
    (b"P 0\nT x\n", "is 'T x', which is no line of domelink's"),
    (b"P 0\nT 16\n", "is 'T 16', which is no line of domelink's"),
    (b"P 0\nT -1\n", "is 'T -1', which is no line of domelink's"),
    (b"P 0\nT 0\nL 1\n", "is 'L 1', which is no line of domelink's"),
    (b"P 0\nT 1\0\n", "is 'T 1?', which is no line of domelink's"),
    (SPARSE.read_bytes() if SPARSE.exists() else b"", "is no listing of"),
]

# What no list of streams is, and words of the sentence.
NO_LIST = [
    (b"0\n\n1\n", "line 2 of standard input is '', and has to be a flow's "),
    (b"0\nT 1\n", "line 2 of standard input is 'T 1'"),
    (b"P 0\nT 1\n", "line 1 of standard input is 'P 0'"),
    (b"0 1\n", "line 1 of standard input is '0 1'"),
    (b"-1\n", "line 1 of standard input is '-1'"),
    (b"16\n", "line 1 of standard input is '16', and has to be a flow's "
     "number, 0 to 15, or -: does it number the flows from 1 on?"),
    (b"17\n", "has to be a flow's number, 0 to 15, or -; ./check-log"),
    (b"--\n", "line 1 of standard input is '--'"),
    (b"\xd9\xa3\n", "line 1 of standard input is '??'"),
    (b"1" * 5000, "line 1 of standard input is '1111"),
    (b"# streams\n0\n", "line 1 of standard input is '# streams'"),
]

# Words of ./check-log, and words of the sentence.
WRONG = [
    ([], "two files are compared, BOOKED and SENT, and 0 are named"),
    (["a"], "and 1 is named"),
    (["a", "b", "c"], "and 3 are named"),
    (["-", "-"], "only one of the files can be standard input"),
    (["--fast", "a", "b"], "there is no option '--fast'"),
    (["--slots"], "--slots takes F, the slots to a frame, 1 to 64"),
    (["--slots", "0", "a", "b"], "1 to 64, and not '0'"),
    (["--slots", "65", "a", "b"], "1 to 64, and not '65'"),
    (["--slots", "x", "a", "b"], "1 to 64, and not 'x'"),
    (["--slots", "4", "a"], "and 1 is named"),
    (["nowhere", "b"], "there is no file 'nowhere'"),
    ([os.sep, "b"], "'/' is a directory, not a listing"),
]


CHECK = tuple("tools/check/" + path.name            # what compares
              for path in sorted((ROOT / "tools/check").glob("*.py")))


def listing(booked):
    """A listing of these slots, each of which is granted before."""
    return "P 0\n" + "".join(
        "%sT %s\nC\n" % ("" if flow == "-" else "G 1\n", flow)
        for flow in booked.split())


class LogTree(Tree):
    script, crate = "check-log", "domelink"
    needed = ("tools/check_log.py", *CHECK, "tools/show/refusals.py",
              "tools/show/call_file.py")

    def __init__(self, folder, program):
        """With the python3 that runs the tests first on the path."""
        super().__init__(folder, program)
        self.path = os.path.dirname(sys.executable) + os.pathsep + self.path

    def listing_of(self, calls):
        """The program's listing of a file of calls."""
        return start([self.program], input=calls).output

    def compare(self, booked, sent, *words):
        """Starts it on a listing of these slots and on a list of these
        streams."""
        return self.start(*words, self.write("booked", listing(booked)), "-",
                          input="".join(flow + "\n" for flow
                                        in sent.split()).encode())


def lines(text):
    return "".join(line + "\n" for line in text).encode()


# ---- alike, or not

def slot_by_slot(tree):
    for booked, sent, status, printed in COMPARED:
        wrong = trouble(tree.compare(booked, sent), status, lines(printed))
        if wrong:
            return "%s against %s: %s" % (booked, sent, wrong)
    return None


def moved_by_one(tree):
    for booked, sent, first in MOVED:
        said = tree.compare(booked, sent).output.decode().splitlines()
        found = [line for line in said if line.startswith("moved")]
        if found != ([] if first is None else [MOVED_BY_ONE % first]):
            return "%s against %s: %s" % (booked, sent, said)
        if found and any("look at" in line for line in said):
            return "no flow is at fault: %s" % said
    return None


def twenty_are_told(tree):
    """Of 23 slots that differ: the flow leaves in slot 23 alone."""
    ended = tree.compare("3 " * 24, "- " * 22 + "3 -")
    return trouble(ended, DIFFER, lines(
        ["differ: 1 of 24 slots agrees; BOOKED has 24 and SENT has 24",
         "flow 3: 24 booked, 1 left in its slot, 23 never" + HAD_IT]
        + ["slot %d: it was booked for flow 3, and nothing left" % slot
           for slot in range(1, 21)] + ["and 3 more"]))


def frames_are_named(tree):
    for slots, slot, name in PLACES:
        booked = "- " * 200
        sent = "- " * (slot - 1) + "7 " + "- " * (200 - slot)
        ended = tree.compare(booked, sent, "--slots", str(slots))
        wrong = trouble(ended, DIFFER, lines([
            "differ: 199 of 200 slots agree; BOOKED has 200 and SENT has 200",
            "flow 7: none booked, 1 left elsewhere: look at who sends under "
            "this number, and whether its requests were refused",
            "%s: nobody booked it, and flow 7 left" % name]))
        if wrong:
            return "%d of %d: %s" % (slot, slots, wrong)
    return None


def the_sparse_flight(tree):
    """As docs/CHECKLIST.md says it: 12 slots of 40 have a stream.  The title
    leaves in slot 9, slot 1 of frame 1, and asks once too soon, with call 17
    of flights/sparse.txt."""
    booked = tree.write("booked", tree.listing_of(SPARSE.read_bytes()))
    sent = (ROOT / "flights/sparse.sent").read_bytes()
    other = sent.split(b"\n")
    other[8] = b"0"
    refused = "1 call refused with 12, call 17: wait for credits or the " \
        "next frame"
    return trouble(
        tree.start("--slots", "8", booked, tree.write("sent", sent)),
        output=lines([
            "alike: 40 of 40 slots agree, 12 with a stream and 28 idle",
            "flow 0: 5 booked, all left in their slots",
            "flow 1: 3 booked, all left in their slots",
            "flow 2: 4 booked, all left in their slots", refused])
    ) or trouble(
        tree.start("--slots", "8", booked, "-", input=b"\n".join(other)),
        DIFFER, lines([
            "differ: 39 of 40 slots agree; BOOKED has 40 and SENT has 40",
            "flow 0: 5 booked, 5 left in their slots, 1 elsewhere: 1 more "
            "than booked: look at what its board sends",
            "flow 1: 3 booked, all left in their slots",
            "flow 2: 4 booked, 3 left in their slots, 1 never" + HAD_IT,
            "slot 9 (frame 1, its slot 1): it was booked for flow 2, and flow "
            "0 left", refused]))


def listing_on_standard_input(tree):
    sent = tree.write("sent", "3\n")
    return trouble(tree.start("-", sent, input=b"P 0\nT 3\n"), output=(
        b"alike: 1 of 1 slot agrees, 1 with a stream and 0 idle\n"
        b"flow 3: 1 booked, left in its slot\n"))


def other_ends_of_lines(tree):
    """Blanks, a carriage return, zeros in front, and no end of the last."""
    booked = tree.write("booked", b"P 0\r\nT 7\r\nT -")
    return trouble(tree.start(booked, "-", input=b"  007 \r\n-"), output=(
        b"alike: 2 of 2 slots agree, 1 with a stream and 1 idle\n"
        b"flow 7: 1 booked, left in its slot\n"))


def empty_lines_at_the_end(tree):
    """Of a list of streams they are no slots; before another line they are
    refused, and so they are in a listing."""
    booked = tree.write("booked", b"P 0\nT 7\nT -\n")
    for end in (b"\n", b"\n\n", b" \r\n\t\n", b"\n" * 1000):
        ended = tree.start(booked, "-", input=b"7\n-\n" + end)
        wrong = trouble(ended, output=(
            b"alike: 2 of 2 slots agree, 1 with a stream and 1 idle\n"
            b"flow 7: 1 booked, left in its slot\n"))
        if wrong:
            return "%r: %s" % (end[:9], wrong)
    return trouble(
        tree.start(booked, "-", input=b"7\n\n\n-\n\n"), NOT_COMPARED, b"",
        "line 2 of standard input is '', and has to be a flow's number, 0 to "
        "15, or -")


def odd_names(tree):
    """Blanks, a quote, a minus in front after --, from another folder by a
    symlink."""
    for name in ("a 'b' c", "-x"):
        tree.write(name, "P 0\nT 3\n")
        wrong = trouble(tree.start("--", name, "-", input=b"3\n",
                                   cwd=tree.root), ALIKE)
        if wrong:
            return "%s: %s" % (name, wrong)
    os.symlink("tree/check-log", tree.root.parent / "other")
    return trouble(start([tree.root.parent / "other", "-x", "--help"],
                         cwd="/"), NOT_COMPARED, b"", "no option '-x'")


# ---- what can't be compared

def no_listing(tree):
    sent = tree.write("sent", "0\n")
    for data, says in NO_LISTING:
        wrong = trouble(tree.start("-", sent, input=data), NOT_COMPARED, b"",
                        says)
        if wrong:
            return "%r: %s" % (data[:20], wrong)
    return None


def no_list_of_streams(tree):
    booked = tree.write("booked", "P 0\nT 0\nT 1\n")
    for data, says in NO_LIST:
        wrong = trouble(tree.start(booked, "-", input=data), NOT_COMPARED,
                        b"", says)
        if wrong:
            return "%r: %s" % (data[:20], wrong)
    return trouble(tree.start(booked, "/dev/zero"), NOT_COMPARED, b"",
                   "line 1 of '/dev/zero' is '???")


def wrong_words(tree):
    for words, says in WRONG:
        ended = tree.start(*words)
        wrong = (trouble(ended, NOT_COMPARED, b"", "check-log: ")
                 or trouble(ended, NOT_COMPARED, b"", says))
        if wrong:
            return "%s: %s" % (words, wrong)
    return None


def streams_are_missing(tree):
    booked = tree.write("booked", "P 0\nT 0\n")
    return trouble(tree.start(booked, "nowhere"), NOT_COMPARED, b"",
                   "there is no file 'nowhere'") or trouble(
        tree.start(booked, tree.root), NOT_COMPARED, b"",
        "is a directory, not a list of streams") or trouble(
        start(redirected("<&-", tree.command, booked, "-")), NOT_COMPARED,
        b"", "standard input is closed")


def output_is_lost(tree):
    """Also where they are alike: status 0 would say so."""
    booked = tree.write("booked", "P 0\nT 0\n")
    sent = tree.write("sent", "0\n")
    ways = [(">&-", "standard output is closed")]
    if os.path.exists("/dev/full"):
        ways.append((">/dev/full", "output was lost"))
    for way, says in ways:
        wrong = trouble(start(redirected(way, tree.command, booked, sent)),
                        NOT_COMPARED, b"", says)
        if wrong:
            return "%s: %s" % (way, wrong)
    return trouble(start(redirected(">&-", tree.command, "--help")),
                   NOT_COMPARED, b"", "output was lost")


def python3_is_missing(tree):
    """It is said; the help page needs none."""
    tree.only_tools()
    ended = tree.start("--help")
    return trouble(tree.start("a", "b"), NOT_COMPARED, b"",
                   "python3, which compares the two, is not on the path"
                   ) or trouble(ended)


def help_page(tree):
    """It fits a screen, and its example is answered as it says."""
    page = tree.start("--help").output.decode().splitlines()
    widest = max(map(len, page))
    if len(page) > 40 or widest > 80:
        return "%d lines of %d" % (len(page), widest)
    rows = [line.split() for line in page if line.startswith("  T ")]
    booked = " ".join(row[1] for row in rows)
    sent = " ".join(row[2] for row in rows)
    return trouble(tree.compare(booked, sent), DIFFER, lines([
        "differ: 2 of 3 slots agree; BOOKED has 3 and SENT has 3",
        "flow 0: 1 booked, 1 left in its slot, 1 elsewhere: 1 more than "
        "booked: look at what its board sends",
        "flow 1: 1 booked, none left: look at its cable",
        "slot 3: it was booked for flow 1, and flow 0 left"])) or not any(
            line.startswith("Exit status") for line in page)


TESTS = (
    slot_by_slot, moved_by_one, twenty_are_told, frames_are_named,
    the_sparse_flight,
    listing_on_standard_input, other_ends_of_lines, empty_lines_at_the_end,
    odd_names, no_listing, no_list_of_streams, wrong_words,
    streams_are_missing, output_is_lost, python3_is_missing, help_page,
)


def tests(programs):
    return named(LogTree, TESTS, programs)

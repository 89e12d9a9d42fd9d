"""./check-log on what else BOOKED says: calls that were refused, by number and
with --calls by flow, and granted slots that were still to come."""

import call_bytes
from edges.edge_maker import TICK
from front_door.check_log import (
    ALIKE, DIFFER, NOT_COMPARED, LogTree, lines)
from front_door.command import ROOT, trouble
from front_door.tree import named

# Numbers, the exit status of a listing in which each stands, and the end of
# its line.  The words are those of docs/REFUSALS.md.
NUMBERS = [
    (8, DIFFER, "the word's or the credit's flow is not below n; look at the "
     "sender's flow number"),
    (9, DIFFER, "the word's destination is not the flow's; look at the "
     "sender's routing"),
    (10, DIFFER, "the word's departure is not a position of the window; give "
     "both boards the same plan"),
    (11, ALIKE, "ask again in the next frame"),
    (12, ALIKE, "wait for credits or the next frame"),
    (13, DIFFER, "the credit's position is not in the window; give both "
     "boards the same plan"),
    (14, DIFFER, "the credit's position lies in the head frame and not after "
     "the current one; date it with a position to come"),
    (15, DIFFER, "the flow holds nothing at the credit's position, or at some "
     "later one; send one credit for each cell that falls free, and none "
     "twice"),
    (16, DIFFER, "the record's kind is unknown, a filler is not 0, or fewer "
     "than five bytes are left; look at the writer of the call file"),
    (20, ALIKE, "ask again in the next frame"),
    (24, DIFFER, "the word's quantum number is not the one that is expected "
     "of its flow; go on by one after a grant, and send the same number again "
     "after a refusal"),
]

# F = 4, W = 2: two flows with share 2 and 2 cells.  Flow 0 gets slots 1 and 2
# and has no third cell; flow 1 asks for another node than 9, and then with
# number 1 where 0 is expected; flow 2 is none; its own credit comes twice.
CALLS = call_bytes.plan(4, 2, 4, [(2, 2, 1, 9), (2, 2, 2, 9)]) + b"".join((
    call_bytes.request(9, 0), call_bytes.request(9, 0, 1),
    call_bytes.request(9, 0, 2), call_bytes.request(8, 1),
    call_bytes.request(9, 1, 1), call_bytes.request(9, 2), TICK,
    call_bytes.credit(0, 4), call_bytes.credit(0, 4), call_bytes.credit(0, 4),
    b"\7\0\0"))
ANSWERS = b"P 0\nG 1\nG 2\nR 12\nR 9\nR 24\nR 8\nT 0\nC\nC\nR 15\nR 16\n"
NAMED = [
    "refused: 5 wrong calls in BOOKED; 1 of 1 slot agrees, 1 with a stream "
    "and 0 idle",
    "flow 0: 1 booked, left in its slot",
    "flow 1: nothing was granted to it, 1 with 9, 1 with 24 refused",
    "flow 2: nothing was granted to it, 1 with 8 refused",
    "1 call refused with 8 (flow 2), call 6: " + NUMBERS[0][2],
    "1 call refused with 9 (flow 1), call 4: " + NUMBERS[1][2],
    "1 call refused with 12 (flow 0), call 3: " + NUMBERS[4][2],
    "1 call refused with 15 (flow 0), call 10: " + NUMBERS[7][2],
    "1 call refused with 16, call 11: " + NUMBERS[8][2],
    "1 call refused with 24 (flow 1), call 5: " + NUMBERS[10][2],
    "1 granted slot had not come up at the end of BOOKED (flow 0): let it "
    "tick on until each has",
]

# What stands in a file that BOOKED is not the listing of, and the sentence.
OTHERS = [
    (CALLS[:-3], "line 12 answers no such call"),
    (CALLS + TICK, "the file has more calls than it has lines"),
    (CALLS[:20] + TICK + CALLS[20:], "line 2 answers no such call"),
]
NO_CALLS = [
    (b"", "is no file of calls: the file doesn't begin with a plan's length"),
    (b"plan F=4 W=2 N=4\n", "tools/calls makes one of a text"),
    (CALLS[:19], "the plan states 20 bytes, and 19 are there"),
]


class RefusedTree(LogTree):
    def on(self, listing, sent, *words):
        return self.start(*words, self.write("booked", listing),
                          self.write("sent", sent))


# ---- by number

def each_number(tree):
    """Alone, and in --ahead too, but for 16, which stands there for a lend."""
    for number, status, said in NUMBERS:
        listing = "P 0\nR %d\nT -\nR %d\n" % (number, number)
        told = "2 calls refused with %d, call 1 first: %s" % (number, said)
        for words in ([],) if number == 16 else ([], ["--ahead"]):
            ended = tree.on(listing, "-\n", *words)
            found = ended.output.decode().splitlines()
            wrong = trouble(ended, status) or (found[1:] != [told] and found)
            if wrong:
                return "%d %s: %s" % (number, words, wrong)
    return None


def the_first_line(tree):
    """Refusals that are told alone leave the verdict; a difference comes
    first."""
    return trouble(tree.on("P 0\nR 9\nT -\n", "-\n"), DIFFER, lines([
        "refused: 1 wrong call in BOOKED; 1 of 1 slot agrees, 0 with a stream "
        "and 1 idle",
        "1 call refused with 9, call 1: " + NUMBERS[1][2]])) or trouble(
        tree.on("P 0\nR 9\nT -\n", "-\n", "--ahead"), DIFFER, lines([
            "refused: 1 wrong call in BOOKED; 0 tiles left at or before their "
            "slots, 0 ahead; 0 slots gained",
            "1 call refused with 9, call 1: " + NUMBERS[1][2]])) or trouble(
        tree.on("P 0\nG 1\nT 0\nR 9\n", "-\n"), DIFFER, lines([
            "differ: 0 of 1 slot agrees; BOOKED has 1 and SENT has 1",
            "nothing left at all: look at the link, its cable and its power, "
            "or at where SENT was taken",
            "flow 0: 1 booked, none left",
            "slot 1: it was booked for flow 0, and nothing left",
            "1 call refused with 9, call 3: " + NUMBERS[1][2]]))


def without_the_page(tree):
    """Numbers without words."""
    (tree.root / "docs/REFUSALS.md").unlink()
    return trouble(tree.on("P 0\nR 9\nT -\n", "-\n"), DIFFER, lines([
        "refused: 1 wrong call in BOOKED; 1 of 1 slot agrees, 0 with a stream "
        "and 1 idle",
        "1 call refused with 9, call 1: see docs/REFUSALS.md; "]))


def slots_to_come(tree):
    """Told, and no difference."""
    for granted, said in ((1, "1 granted slot"), (88, "88 granted slots")):
        ended = tree.on("P 0\n" + "G 1\n" * (granted + 1) + "T 3\n", "3\n")
        wrong = trouble(ended, ALIKE, lines([
            "alike: 1 of 1 slot agrees, 1 with a stream and 0 idle",
            "flow 3: 1 booked, left in its slot",
            said + " had not come up at the end of BOOKED: let it tick on "
            "until each has"]))
        if wrong:
            return "%d: %s" % (granted, wrong)
    return None


# ---- by flow

def flows_are_named(tree):
    calls = tree.write("calls", CALLS)
    return trouble(tree.on(ANSWERS, "0\n", "--calls", calls), DIFFER,
                   lines(NAMED))


def frames_are_known(tree):
    """F of the plan, unless --slots gives another."""
    calls = tree.write("calls", CALLS[:20] + 5 * TICK)
    listing, sent = "P 0\n" + 5 * "T -\n", "-\n-\n-\n-\n1\n"
    for words, name in (([], b"slot 5 (frame 1, its slot 1)"),
                        (["--slots", "5"], b"slot 5 (frame 1, its slot 0)")):
        said = tree.on(listing, sent, *words, "--calls", calls).output
        if b"%s: nobody booked it, and flow 1 left\n" % name not in said:
            return "%s: %s" % (words, said)
    return None


def window_is_known(tree):
    """With T = 8 a tile may leave 7 slots ahead, and not 8."""
    for slots, status in ((8, ALIKE), (9, DIFFER)):
        calls = tree.write("calls", CALLS[:20] + call_bytes.request(9, 0)
                           + slots * TICK)
        listing = "P 0\nG 1\n" + (slots - 1) * "T -\n" + "T 0\n"
        ended = tree.on(listing, "0\n" + (slots - 1) * "-\n", "--ahead",
                        "--calls", calls)
        if trouble(ended, status):
            return "%d: %s" % (slots, ended.output)
    return None


def another_file(tree):
    for data, says in OTHERS:
        ended = tree.on(ANSWERS, "0\n", "--calls", tree.write("calls", data))
        wrong = trouble(ended, NOT_COMPARED, b"",
                        "BOOKED is not the listing of") or trouble(
            ended, NOT_COMPARED, b"", says)
        if wrong:
            return wrong
    return None


def no_calls(tree):
    for data, says in NO_CALLS:
        ended = tree.on(ANSWERS, "0\n", "--calls", tree.write("calls", data))
        wrong = trouble(ended, NOT_COMPARED, b"", says)
        if wrong:
            return "%r: %s" % (data[:9], wrong)
    return None


def wrong_words(tree):
    for words, says in (
            (["--calls"], "--calls takes a file of calls, and none is named"),
            (["--calls", "nowhere", "a", "b"], "there is no file 'nowhere'"),
            (["--calls", "/", "a", "b"], "is a directory, not a file of "),
            (["--calls", "-", "-", "b"], "only one of the files can be"),
            (["--calls", "-", "a"], "and 1 is named")):
        wrong = trouble(tree.start(*words), NOT_COMPARED, b"", says)
        if wrong:
            return "%s: %s" % (words, wrong)
    return None


def calls_on_standard_input(tree):
    return trouble(tree.start(
        "--calls", "-", tree.write("booked", ANSWERS),
        tree.write("sent", "0\n"), input=CALLS), DIFFER, lines(NAMED))


def flights_are_their_own(tree):
    """Each flight is the file that its listing answers."""
    for name in ("sparse", "dense", "listing"):
        path = ROOT / "flights" / name
        listing = tree.write("booked", tree.listing_of(path.read_bytes()))
        ended = tree.start("--calls", path, listing, tree.write("sent", ""))
        if trouble(ended, DIFFER):
            return "%s: %s" % (name, ended.errors)
    return None


TESTS = (
    each_number, the_first_line, without_the_page, slots_to_come,
    flows_are_named, frames_are_known, window_is_known, another_file, no_calls,
    wrong_words, calls_on_standard_input, flights_are_their_own,
)


def tests(programs):
    for name, test in named(RefusedTree, TESTS, programs):
        yield name.replace("log:", "log, refusals:"), test

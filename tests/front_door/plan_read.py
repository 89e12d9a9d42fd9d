"""./plan --read: plan files printed for people, and what is refused."""

import call_bytes
from edges import refusals_page
from edges.edge_maker import BASE
from front_door.command import ROOT, redirected, start, trouble
from front_door.plan_tree import NOT_DONE, REFUSED, in_trees
from front_door.remedies import what_to_do

PRINTED = b"""\
F 4, slots to a frame
W 2, frames in the window
N 4, places in the buffer

flow  share  cells  source  destination
   0      2      2       1            9
   1      2      2       2            9
left      0      0  of F and of N

to make it again: ./plan 4 2 4  2 2 1 9  2 2 2 9
"""
ROOMY = call_bytes.plan(64, 4, 4095, [(9, 255, 0, 63), (40, 1, 63, 0),
                                      (1, 12, 5, 6)])
# 64 - 50 = 14 and 4,095 - 268 = 3,827
ROOMY_PRINTED = b"""\
F 64, slots to a frame
W 4, frames in the window
N 4095, places in the buffer

flow  share  cells  source  destination
   0      9    255       0           63
   1     40      1      63            0
   2      1     12       5            6
left     14   3827  of F and of N

to make it again: ./plan 64 4 4095  9 255 0 63  40 1 63 0  1 12 5 6
"""
# What is said of the inputs of docs/REFUSALS.md that are no plan.
OF_THE_PAGE = {
    1: "the plan has fewer than 12 bytes or another length than it states; at "
       "the start of a call file, also where that is not 12 to 76; here it "
       "has 2 bytes and states 11",
    2: "n is not 1 to 16, the offset is not 12, or the length is not 12 + 4n; "
       "here n is 0, the offset 12 and the length 12",
    3: "W is not 2 to 8; here W is 9",
    4: "a flow's cells are 0 or above 255; here flow 0 has 0 cells",
    5: "two flows have the same source and the same destination; here flows 0 "
       "and 1",
    6: "the shares add to more than F; here they add to 5, and F is 4",
    7: "the cells add to more than N; here they add to 4, and N is 3",
}
SIXTEEN = call_bytes.plan(64, 4, 4095, [(4, 255, place, 63)
                                        for place in range(16)])


# ---- plan files

def a_file(tree):
    return trouble(tree.start("--read", tree.file, cwd="/"), output=PRINTED)


def what_is_left(tree):
    path = tree.write("roomy", ROOMY)
    return trouble(tree.start("--read", path), output=ROOMY_PRINTED)


def standard_input(tree):
    return trouble(tree.start("--read", "-", input=BASE), output=PRINTED)


def odd_names(tree):
    """Blanks, a quote, and a minus in front."""
    for name in ("a 'b' c", "-x", "--read"):
        tree.write(name, BASE)
        wrong = trouble(tree.start("--read", name, cwd=tree.root),
                        output=PRINTED)
        if wrong:
            return wrong
    return None


def made_again(tree):
    """The last line, started as it stands, makes the same bytes."""
    for data in (BASE, ROOMY, SIXTEEN):
        lines = tree.start("--read", "-", input=data).output.splitlines()
        words = lines[-1].decode().partition(": ")[2].split()
        wrong = words[:1] != ["./plan"] or trouble(
            tree.start(*words[1:]), output=data)
        if wrong:
            return "from %r: %s" % (lines[-1], wrong)
    return None


def no_tools_but_the_usual(tree):
    tree.only_tools()
    return trouble(tree.start("--read", tree.file), output=PRINTED)


# ---- files that are refused

def refused_files(tree):
    """Status 1, what is refused and here, and what to do."""
    for number, data, last in refusals_page.examples():
        if last.startswith("P"):
            wrong = trouble(tree.start("--read", "-", input=data), REFUSED,
                            b"", "plan: standard input is refused with %d: %s"
                            % (number, OF_THE_PAGE[number]),
                            what_to_do(number))
            if wrong:
                return "refusal %d: %s" % (number, wrong)
    return None


def empty_file(tree):
    path = tree.write("empty", b"")
    return trouble(tree.start("--read", path), REFUSED, b"",
                   "empty' is refused with 1: the plan has fewer than",
                   what_to_do(1))


def long_files(tree):
    """A file of 1,997 bytes is the longest that domeplan takes; no plan has
    more than 76."""
    stated = (1997).to_bytes(2, "little")
    for data, says, then in (
            (stated + bytes(1995), "is refused with 2: ", what_to_do(2)),
            (bytes(1997), "is refused with 1: ", what_to_do(1)),
            (stated + bytes(1996), "a plan has at most 76 bytes", None)):
        wrong = trouble(tree.start("--read", "-", input=data), REFUSED, b"",
                        says, then)
        if wrong:
            return "%d bytes: %s" % (len(data), wrong)
    return None


def text_file(tree):
    return trouble(tree.start("--read", ROOT / "README.md"), REFUSED, b"",
                   "README.md' is no plan: a plan has at most 76 bytes")


def file_without_end(tree):
    return trouble(tree.start("--read", "/dev/zero"), REFUSED, b"",
                   "'/dev/zero' is no plan: a plan has at most 76 bytes")


# ---- what can't be read

def directory(tree):
    return trouble(tree.start("--read", tree.root), NOT_DONE, b"",
                   "is a directory, not a plan file")


def missing_file(tree):
    return trouble(tree.start("--read", "nowhere"), NOT_DONE, b"",
                   "there is no file 'nowhere'")


def closed_input(tree):
    return trouble(start(redirected("<&-", tree.command, "--read", "-")),
                   NOT_DONE, b"", "standard input is closed")


def input_that_gives_nothing(tree):
    """Standard input is open for writing only."""
    words = redirected("0>written", tree.command, "--read", "-")
    return trouble(start(words, cwd=tree.root), NOT_DONE, b"",
                   "standard input can't be read")


TESTS = (
    a_file, what_is_left, standard_input, odd_names, made_again,
    no_tools_but_the_usual, refused_files, empty_file, long_files, text_file,
    file_without_end, directory, missing_file, closed_input,
    input_that_gives_nothing,
)


def tests(programs):
    return in_trees(TESTS, programs)

"""./plan with numbers: the plan files that it makes, and what is refused."""

import os
import re

import call_bytes
from edges import refusals_page
from edges.edge_maker import BASE
from front_door.command import redirected, start, trouble
from front_door.plan_tree import NUMBERS, REFUSED, in_trees
from front_door.remedies import what_to_do

SIXTEEN = [(4, 255, place, 63) for place in range(16)]
# Blanks, a newline, a percent sign, a backslash: bytes that a shell may spoil.
SPOILT = [(10, 37, 32, 10), (37, 92, 37, 0), (13, 255, 39, 34)]

# Numbers beside the refusal that rule 2.3 gives them, and what it is that is
# refused.
COUNT = "n is not 1 to 16"
REFUSALS = [
    ("4 2 4", 2, COUNT),                    # no flow
    ("0 2 4" + " 1 1 1 9" * 17, 2, COUNT),  # before F
    ("4 2 4" + " 1 1 1 9" * 40, 2, COUNT),
    ("65 2 4  1 1 1 9", 3, "F is not 1 to 64"),
    ("300 2 4  1 1 1 9", 3, "F is not 1 to 64"),    # wider than a byte
    ("4 9 4  1 1 1 9", 3, "W is not 2 to 8"),
    ("4 2 70000  1 1 1 9", 3, "N is not 1 to 4,095"),   # than a field
    ("64 5 4  1 1 1 9", 3, "the window has more than 256 positions"),
    ("4 2 4  5 1 1 9", 4, "a flow's share is not 1 to F"),
    # 1, were it cut to a byte
    ("4 2 4  257 1 1 9", 4, "a flow's share is not 1 to F"),
    ("4 2 4000  1 1000 1 9", 4, "a flow's cells are 0 or above 255"),
    ("4 2 4  1 1 64 9", 4, "a node is above 63"),
    ("4 2 4  1 1 9 64", 4, "a node is above 63"),
    ("4 2 4  1 1 9 9", 4, "a flow's nodes are the same"),
    ("4 2 4  1 1 1 9  1 1 1 9", 5,
     "two flows have the same source and the same destination"),
    ("4 2 4  2 2 1 9  3 2 2 9", 6, "the shares add to more than F"),
    ("4 2 3  2 2 1 9  2 2 2 9", 7, "the cells add to more than N"),
]


def words_of(frame_slots, window_frames, buffer, entries):
    numbers = [frame_slots, window_frames, buffer]
    return [str(number) for number in numbers + sum(map(list, entries), [])]


def made(tree, *numbers):
    return trouble(tree.start(*words_of(*numbers)),
                   output=call_bytes.plan(*numbers))


# ---- plans that are made

def two_flows(tree):
    return trouble(tree.start(*NUMBERS, cwd="/"), output=BASE)


def one_flow(tree):
    return made(tree, 1, 2, 1, [(1, 1, 0, 63)])


def sixteen_flows(tree):
    return made(tree, 64, 4, 4095, SIXTEEN)


def bytes_that_a_shell_may_spoil(tree):
    """N = 2,597 is hex 0A25."""
    return made(tree, 64, 4, 2597, SPOILT)


def zeros_in_front(tree):
    return trouble(tree.start("004", *NUMBERS[1:-1], "000000009"),
                   output=BASE)


def to_a_file(tree):
    path = tree.root / "made.plan"
    ended = start(redirected(">made.plan", tree.command, *NUMBERS),
                  cwd=tree.root)
    return trouble(ended, output=b"") or (
        path.read_bytes() != BASE and "%r is written" % path.read_bytes())


def symlink_to_plan(tree):
    """A symlink to a symlink, one of them relative, from another folder."""
    folder = tree.root.parent
    os.symlink("tree/plan", folder / "first")
    os.symlink(folder / "first", folder / "second")
    return trouble(start([folder / "second", *NUMBERS], cwd="/"), output=BASE)


def closed_input_not_needed(tree):
    return trouble(start(redirected("<&-", tree.command, *NUMBERS)),
                   output=BASE)


def no_tools_but_the_usual(tree):
    tree.only_tools()
    return trouble(tree.start(*NUMBERS), output=BASE)


# ---- plans that are refused

def refused_numbers(tree):
    """Status 1, no byte, what is refused and nothing else of its number, and
    what to do; other faults stand between."""
    for numbers, refusal, when in REFUSALS:
        ended = tree.start(*numbers.split())
        first, *_, last = ended.errors.splitlines()
        if (ended.status != REFUSED or ended.output or not first.startswith(
                "plan: the plan is refused with %d: %s; here " % (
                    refusal, when))
                or not last.startswith("plan: " + what_to_do(refusal))):
            return "%s: status %d, %s" % (numbers[:40], ended.status,
                                          ended.errors)
    return None


def words_of_the_page(tree):
    """What is said of each number is a part of its sentence on the page."""
    page = refusals_page.sentences()
    wrong = [when for _, refusal, when in REFUSALS
             if re.sub("^(a flow's|[WN] is) ", "", when) not in page[refusal]]
    return wrong and "not on the page: %s" % wrong


def page_is_missing(tree):
    (tree.root / "docs/REFUSALS.md").unlink()
    return trouble(tree.start(*NUMBERS[:-4], "3", *NUMBERS[-3:]), REFUSED,
                   b"", "refused with 6: see docs/REFUSALS.md; here they add "
                   "to 5, and F is 4")


# ---- pages

def version(tree):
    """Also where there is neither git nor rt, nor the file VERSION."""
    tree.only_tools()
    return trouble(tree.start("--version"), output=(
        b"Nazgolv version unknown, commit unknown\nkit unknown\n"
        b"program target/bin/domeplan is built\n"))


def help_page(tree):
    ended = tree.start("--help")
    return trouble(ended) or (
        b"Exit status" not in ended.output and "no word on the status")


TESTS = (
    two_flows, one_flow, sixteen_flows, bytes_that_a_shell_may_spoil,
    zeros_in_front, to_a_file, symlink_to_plan, closed_input_not_needed,
    no_tools_but_the_usual, refused_numbers, words_of_the_page,
    page_is_missing, version, help_page,
)


def tests(programs):
    return in_trees(TESTS, programs)

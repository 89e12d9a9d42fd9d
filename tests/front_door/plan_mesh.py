"""./plan --mesh: streams over the mesh in words, and drawn."""

import os

from front_door.command import redirected, start, trouble
from front_door.plan_tree import DONE, NOT_DONE, REFUSED, PlanTree
from front_door.tree import named

LEGEND = ("-> <- v ^ is a link that is used, <-> and | are two; one with ! is "
          "over")
FITS = "fits: no link carries more than %d slots of a frame"
OVER = ("the streams are refused with 25: on some link of the mesh the "
        "streams' shares add to more than F; here %s over")

# The answer of docs/REFUSALS.md: over 1 9 3.  Stream 2 goes along row 1, from
# board 9 to 8, and up column 0; stream 3 up column 7.
EXAMPLE = "2  0 9 2  1 9 1  9 0 1  63 47 2"
PRINTED = """\
stream  source  destination  share  way
     0       0            9      2  0 1 9
     1       1            9      1  1 9
     2       9            0      1  9 8 0
     3      63           47      2  63 55 47

 0 ->  1     2     3     4     5     6     7
 ^    !v
 8 <-  9    10    11    12    13    14    15

16    17    18    19    20    21    22    23

24    25    26    27    28    29    30    31

32    33    34    35    36    37    38    39

40    41    42    43    44    45    46    47
                                           ^
48    49    50    51    52    53    54    55
                                           ^
56    57    58    59    60    61    62    63
%s

over: the link from 1 to 9 carries 3 slots of 2, 1 too many: stream 0 (from 0 \
to 9) has 2, stream 1 (from 1 to 9) has 1
""" % LEGEND

# Words, and a line that has to be drawn: the first row of boards, or what
# stands below it.
SIGNS = [
    ("2  0 1 2", 0, " 0 ->  1     2     3     4     5     6     7"),
    ("2  1 0 2", 0, " 0 <-  1     2     3     4     5     6     7"),
    ("2  0 1 2  1 0 1", 0, " 0<->  1     2     3     4     5     6     7"),
    ("1  0 1 1  0 1 1", 0, " 0 !>  1     2     3     4     5     6     7"),
    ("1  1 0 1  1 0 1", 0, " 0 <!  1     2     3     4     5     6     7"),
    ("1  1 0 1  1 0 1  0 1 1", 0,
     " 0<!>  1     2     3     4     5     6     7"),
    ("1  7 6 1", 0, " 0     1     2     3     4     5     6 <-  7"),
    ("1  0 8 1", 1, " v"),
    ("1  8 0 1", 1, " ^"),
    ("1  8 0 1  0 8 1", 1, " |"),
    ("1  0 8 1  0 8 1", 1, "!v"),
    ("1  8 0 1  8 0 1", 1, "!^"),
    ("1  8 0 1  0 8 1  0 8 1", 1, "!|"),
    ("1  7 15 1", 1, "                                           v"),
]

# Words, and the two sentences of a refusal.
WRONG = [
    ("0  5 5 1", "refused with 3: F is not 1 to 64; here F is 0",
     "choose F from 1 to 64"),
    ("65  0 1 1", "refused with 3: F is not 1 to 64; here F is 65",
     "choose F from 1 to 64"),
    ("2  0 1 2  5 5 1  0 9 3  64 0 1  0 1 0",
     "refused with 4: a stream's share is not 1 to F, a board is above 63, or "
     "it ends where it starts; here stream 1 goes from 5 to 5 with share 1, "
     "stream 2 goes from 0 to 9 with share 3, stream 3 goes from 64 to 0 with "
     "share 1, stream 4 goes from 0 to 1 with share 0", "mend that stream"),
    ("2 " + "0 1 1 " * 65, "refused with 25: there are more than 64 streams; "
     "here there are 65", "ask for at most 64 streams"),
]


class MeshTree(PlanTree):
    def mesh(self, numbers):
        return self.start("--mesh", *numbers.split())


def example(tree):
    return trouble(tree.mesh(EXAMPLE), REFUSED, PRINTED.encode(),
                   "plan: " + OVER % "1 link is",
                   "plan: what to do: lower a share, or send a stream from "
                   "another board")


def fits(tree):
    """The first goes by board 1, and not by board 8."""
    ended = tree.mesh("2  0 9 2  8 9 1")
    return trouble(ended, DONE) or (
        ended.output.decode().splitlines()[-1] != FITS % 2 and ended.output)


def several_links(tree):
    """A sentence each: over 3 4 70 and 4 5 66."""
    ended = tree.mesh("64  3 5 36  3 4 34  4 5 30")
    told = [line for line in ended.output.decode().splitlines()
            if line.startswith("over: ")]
    right = [
        "over: the link from 3 to 4 carries 70 slots of 64, 6 too many: "
        "stream 0 (from 3 to 5) has 36, stream 1 (from 3 to 4) has 34",
        "over: the link from 4 to 5 carries 66 slots of 64, 2 too many: "
        "stream 0 (from 3 to 5) has 36, stream 2 (from 4 to 5) has 30"]
    return trouble(ended, REFUSED, None, OVER % "2 links are", "lower") or (
        told != right and "%s" % told)


def each_sign(tree):
    for numbers, row, line in SIGNS:
        drawing = tree.mesh(numbers).output.decode().split("\n\n")[1]
        if drawing.splitlines()[row] != line:
            return "%s: %s" % (numbers, drawing.splitlines()[:2])
    return None


def refused(tree):
    for numbers, says, advice in WRONG:
        wrong = trouble(tree.mesh(numbers), REFUSED, b"",
                        "plan: the streams are " + says,
                        "plan: what to do: " + advice)
        if wrong:
            return "%s: %s" % (numbers[:20], wrong)
    return None


def sixty_four(tree):
    """As many as can be asked for, over all boards."""
    numbers = "1 " + " ".join("%d %d 1" % (board, board + 1 - 2 * (board % 2))
                              for board in range(64))
    return trouble(tree.mesh(numbers), DONE)


def wrong_words(tree):
    for numbers, says in (
            ("", "--mesh takes F and then a source, a destination and a share "
             "for each stream, and 0 are given"),
            ("2", "and 1 is given"), ("2 0 9", "and 3 are given"),
            ("2 0 9 1 1", "and 5 are given"), ("2 0 x 1", "'x' is no number"),
            ("2 0 9 1234567890", "has more than nine digits"),
            ("2 " + "0 123456789 1 " * 300, "domeplan doesn't take this: ")):
        wrong = trouble(tree.mesh(numbers), NOT_DONE, b"", says)
        if wrong:
            return "%s: %s" % (numbers[:20], wrong)
    return None


def odd_answers(tree):
    for answer, says in (
            ("", "broke off"), ("over 1 9", "answered 'over 1 9'"),
            ("over 1 9 x", "answered"), ("yes", "answered"),
            ("over 3 4 2", "a way that doesn't lead from 0 to 9")):
        tree.instead("while read -r line; do %s; done" % (
            "echo '%s'" % answer if answer else ":"))
        wrong = trouble(tree.mesh("1 0 9 1"), NOT_DONE, b"",
                        "plan: domeplan ") or trouble(
            tree.mesh("1 0 9 1"), NOT_DONE, b"", says)
        if wrong:
            return "%r: %s" % (answer, wrong)
    return None


def output_is_lost(tree):
    words = [tree.command, "--mesh", "2", "0", "9", "1"]
    ways = [(">&-", "standard output is closed")]
    if os.path.exists("/dev/full"):
        ways.append((">/dev/full", "output was lost"))
    for way, says in ways:
        wrong = trouble(start(redirected(way, *words)), NOT_DONE, b"", says)
        if wrong:
            return "%s: %s" % (way, wrong)
    return None


def no_python(tree):
    tree.only_tools()
    (tree.root / "bin/python3").unlink()
    return trouble(tree.mesh(EXAMPLE), NOT_DONE, b"",
                   "python3, which this needs, is not on the path")


TESTS = (example, fits, several_links, each_sign, refused, sixty_four,
         wrong_words, odd_answers, output_is_lost, no_python)


def tests(programs):
    for name, test in named(MeshTree, TESTS, programs):
        yield name.replace("plan:", "plan --mesh:"), test

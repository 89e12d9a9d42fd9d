"""./plan --make and --text: a plan as text, to bytes and back, and what is
wrong with a text, by line, flow and field."""

from edges.edge_maker import BASE
from front_door.command import redirected, start, trouble
from front_door.plan_read import ROOMY, SIXTEEN
from front_door.plan_tree import NOT_DONE, REFUSED, in_trees

NAMED = """\
# The evening show, link 1 to 9
plan F=4 W=2 N=4

flow main  share=2 cells=2 from=1 to=9   # the sky
flow title-2 to=9 from=2 cells=2 share=2
"""
LAID_OUT = b"""\
plan F=4 W=2 N=4
flow main share=2 cells=2 from=1 to=9
flow title-2 share=2 cells=2 from=2 to=9
"""
WITHOUT_NAMES = b"""\
plan F=4 W=2 N=4
flow share=2 cells=2 from=1 to=9  # flow 0
flow share=2 cells=2 from=2 to=9  # flow 1
"""
PRINTED = b"""\
F 4, slots to a frame
W 2, frames in the window
N 4, places in the buffer

flow  share  cells  source  destination  name
   0      2      2       1            9  main
   1      2      2       2            9  title-2
left      0      0  of F and of N

to make it again: ./plan 4 2 4  2 2 1 9  2 2 2 9
"""
FLOW = "flow a share=1 cells=1 from=1 to=9\n"
NONE_OF = "is none of share=NUMBER, cells=NUMBER, from=NUMBER and to=NUMBER"
EACH = ": write each with a number after it"
NO_PLAN = "it has no line that begins with plan, as in plan F=4 W=2 N=4"

# Texts, and what is said of each: sentences behind the file's name.
WRONG = [
    ("plan F=4 W=2\n" + FLOW, ["line 1: N= is missing" + EACH]),
    ("plan\n", ["line 1: F=, W= and N= are missing" + EACH]),
    (FLOW, [NO_PLAN]),
    ("# nothing\n", [NO_PLAN]),
    ("paln F=4 W=2 N=4\n", [
        "line 1: a line begins with plan or flow, and this one with 'paln'",
        NO_PLAN]),
    ("plan F=4 W=2 N=4\nplan F=4 W=2 N=4\n" + FLOW,
     ["line 2: the plan's F, W and N stand on line 1 already"]),
    ("plan F=4 W=2 N=4\n" + FLOW + "ask 0\n", [
        "line 3: a line begins with plan or flow, and this one with 'ask'"]),
    ("plan F=4 W=2 N=4\nflow a shar=1 cells=1 from=1 to=9\n",
     ["line 2: 'shar=1' " + NONE_OF, "line 2: share= is missing" + EACH]),
    ("plan F=4 W=2 N=4\nflow a share=1 cells=1 from=1 to=9 to=9\n",
     ["line 2: to= is given twice: leave one out"]),
    ("plan F=4 W=2 N=4\nflow a share=-1 cells=1 from=1 to=1000000000\n",
     ["line 2: share= takes a number of one to nine digits, and has '-1'",
      "line 2: to= takes a number of one to nine digits, and has "
      "'1000000000'"]),
    ("plan F=4 W=2 N=4\nflow 7 share=1 cells=1 from=1 to=9\n",
     ["line 2: a name begins with a letter and has letters, digits, - and _, "
      "and this is '7'"]),
    ("plan F=4 W=2 N=4\nflow a.b share=1 cells=1 from=1 to=9\n",
     ["line 2: a name begins with a letter and has letters, digits, - and _, "
      "and this is 'a.b'"]),
    ("plan F=4 W=2 N=4\n" + FLOW + FLOW.replace("to=9", "to=8"),
     ["line 3: the name a stands on line 2 already"]),
    # All lines at once, and of those that can be read what is refused.
    ("plan F=4 W=9 N=4\nflow a share=1 cells=300 from=1 to=9\nflow b\n"
     "flow c share=1 cells=1 from=1 to=9\n",
     ["line 1: W is not 2 to 8; here W is 9 (line 1)",
      "line 2: a flow's cells are 0 or above 255; here flow a (line 2) has 300 "
      "cells",
      "line 3: share=, cells=, from= and to= are missing" + EACH,
      "line 4: two flows have the same source and the same destination; here "
      "flows a (line 2) and c (line 4)"]),
]

# A text with a fault of each sort, and what is said, the words in front of
# the first left out.
REFUSED_TEXT = """\
# line 1
plan F=4 W=2 N=4
flow main share=2 cells=300 from=1 to=9
flow share=9 cells=0 from=64 to=2

flow moon share=1 cells=1 from=1 to=9
"""
ALL_FAULTS = [
    "refused with 4: a flow's cells are 0 or above 255; here flow main (line "
    "3) has 300 cells",
    "and then with 4: a flow's share is not 1 to F; here flow 1 (line 4) has "
    "share 9",
    "and then with 4: a flow's cells are 0 or above 255; here flow 1 (line 4) "
    "has 0 cells",
    "and then with 4: a node is above 63; here flow 1 (line 4) comes from "
    "node 64",
    "and then with 5: two flows have the same source and the same "
    "destination; here flows main (line 3) and moon (line 6)",
    "and then with 6: the shares add to more than F; here they add to 12, and "
    "F is 4 (line 2)",
    "and then with 7: the cells add to more than N; here they add to 301, and "
    "N is 4 (line 2)",
    "what to do: mend that flow; make them one flow; lower a share; lower a "
    "flow's cells",
]


def made(tree, text):
    tree.write("show.txt", text)
    return tree.start("--make", "show.txt", cwd=tree.root)


# ---- to bytes and back

def text_to_bytes(tree):
    """Comments, empty lines, keys in any order, names or none; lines that end
    as they do elsewhere, and an editor's mark in front."""
    return trouble(made(tree, NAMED), output=BASE) or trouble(
        made(tree, WITHOUT_NAMES), output=BASE) or trouble(
        made(tree, NAMED.replace("\n", "\r\n")), output=BASE) or trouble(
        made(tree, b"\xef\xbb\xbf" + NAMED.encode()), output=BASE) or trouble(
        tree.start("--make", "-", input=NAMED.encode()), output=BASE)


def bytes_to_text(tree):
    """Of a text the names stay, of bytes there are none."""
    tree.write("show.txt", NAMED)
    return trouble(tree.start("--text", tree.file),
                   output=WITHOUT_NAMES) or trouble(
        tree.start("--text", tree.root / "show.txt"), output=LAID_OUT)


def there_and_back(tree):
    for data in (BASE, ROOMY, SIXTEEN):
        told = tree.start("--text", "-", input=data)
        wrong = trouble(told) or trouble(tree.start(
            "--make", "-", input=told.output), output=data)
        if wrong:
            return "%r: %s" % (data[:12], wrong)
    return None


def as_numbers_do(tree):
    """Numbers wider than a byte are told from those that are cut."""
    wide = NAMED.replace("cells=2 from=1", "cells=258 from=1")
    return trouble(made(tree, wide.replace("N=4", "N=4000")), REFUSED, b"",
                   "'show.txt' is refused with 4: a flow's cells are 0 or "
                   "above 255; here flow main (line 4) has 258 cells",
                   "mend that flow")


def text_is_read(tree):
    """By --read and --check, with its names."""
    tree.write("show.txt", NAMED)
    ended = tree.start("--check", tree.root / "show.txt")
    return trouble(tree.start("--read", tree.root / "show.txt"),
                   output=PRINTED) or trouble(ended) or (
        (not ended.output.startswith(PRINTED) or
         b"  flow main: 4 cells for 2, or 6 if" not in ended.output)
        and ended.output.decode())


# ---- what is wrong

def wrong_texts(tree):
    """Each line is named, and nothing is written."""
    for text, sentences in WRONG:
        ended = made(tree, text)
        told = ended.errors.splitlines()
        if (ended.status, ended.output) != (NOT_DONE, b"") or told != [
                "plan: 'show.txt': " + each for each in sentences]:
            return "%r: status %d, %s" % (text, ended.status, ended.errors)
    return None


def all_faults(tree):
    """--make, --read, --check and --text say the same of a text."""
    tree.write("show.txt", REFUSED_TEXT)
    right = ["plan: 'show.txt' is " + ALL_FAULTS[0]] + [
        "plan: " + line for line in ALL_FAULTS[1:]]
    for option in ("--make", "--read", "--check", "--text"):
        ended = tree.start(option, "show.txt", cwd=tree.root)
        if ended.status != REFUSED or ended.errors.splitlines() != right:
            return "%s: status %d, %s" % (option, ended.status, ended.errors)
        if bool(ended.output) != (option == "--check"):
            return "%s: %r" % (option, ended.output)
    return None


def no_text(tree):
    """Bytes, bytes that are no letters, a text without end, and no file."""
    tree.write("bytes", BASE)
    tree.write("latin", b"plan F=4 W=2 N=4 # \xe4\n" + FLOW.encode())
    tree.write("long", "plan F=4 W=2 N=4\n" + "# more\n" * 10000)
    for name, says in (
            ("bytes", "'bytes' is no text; ./plan --read prints a plan file"),
            ("latin", "'latin': line 1: it is no text"),
            ("long", "'long' has more than 65,536 bytes, and a plan's text "
             "has at most these"),
            ("nowhere", "there is no file 'nowhere'"),
            (".", "'.' is a directory, not a plan's text")):
        ended = tree.start("--make", name, cwd=tree.root)
        if (ended.status, ended.output) != (NOT_DONE, b"") or (
                ended.errors.splitlines()[0] != "plan: " + says):
            return "%s: status %d, %s" % (name, ended.status, ended.errors)
    return None


def calls_are_no_plan_text(tree):
    """Of a text of calls the first line that is no plan's is named; many such
    lines are not all told."""
    text = "plan F=4 W=2 N=4\n" + FLOW + "tick\n" * 50
    lines = made(tree, text).errors.splitlines()
    return (len(lines) != 21 or "line 3: " not in lines[0]
            or lines[-1] != "plan: and 30 more") and "%s" % lines[-2:]


def a_file_alone(tree):
    """It is said what reads a file."""
    return trouble(tree.start("show.plan", cwd=tree.root), NOT_DONE, b"",
                   "'show.plan' is no number: --make makes a plan file of a "
                   "text, and --read prints a plan; ./plan --help says more")


def standard_input_is_closed(tree):
    return trouble(start(redirected("<&-", tree.command, "--make", "-")),
                   NOT_DONE, b"", "standard input is closed, and - stands")


TESTS = (text_to_bytes, bytes_to_text, there_and_back, as_numbers_do,
         text_is_read, wrong_texts, all_faults, no_text,
         calls_are_no_plan_text, a_file_alone, standard_input_is_closed)


def tests(programs):
    return in_trees(TESTS, programs)

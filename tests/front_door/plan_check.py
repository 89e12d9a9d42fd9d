"""./plan --check: a plan file printed with its rates and a verdict, or its
refusal in words."""

import os

import call_bytes
from edges import refusals_page
from edges.edge_maker import BASE
from front_door.command import ROOT, redirected, start, trouble
from front_door.plan_delays import HEAD, WORDS
from front_door.plan_read import (
    OF_THE_PAGE, PRINTED, ROOMY, ROOMY_PRINTED)
from front_door.plan_tree import NOT_DONE, REFUSED, in_trees
from front_door.remedies import what_to_do

DELAYS = """
%s
%%s
%s
""" % (HEAD, WORDS.strip())
CHECKED = PRINTED + b"""
flow   rate, its share over F
   0    2/4   50.0 %
   1    2/4   50.0 %
left    0/4    0.0 %
""" + (DELAYS % """\
   0      7       2      2  4: add 2       6: add 4               2            1
   1      7       2      2  4: add 2       6: add 4               2            1\
""").encode() + b"""
to change:
  flow 0: 4 cells for 2, or 6 if this is its last link
  flow 1: 4 cells for 2, or 6 if this is its last link
  the cells then add to 8, or to 12, and N is 4: raise it, or lower shares

passes: the link takes this plan; slots left in a frame: 0 of 4; \
places left in the buffer: 0 of 4
"""
# 9/64 is 14.0625 and 40/64 is 62.5 in a hundred, 1/64 is 1.5625, and what is
# left, 14/64, is 21.875.
ROOMY_CHECKED = ROOMY_PRINTED + b"""
flow   rate, its share over F
   0   9/64   14.1 %
   1  40/64   62.5 %
   2   1/64    1.6 %
left  14/64   21.9 %
""" + (DELAYS % """\
   0    127       2    255  18: enough     27: enough             9            1
   1    127       2      1  80: add 79     120: add 119          40            1
   2    127       2     12  2: enough      3: enough              1            1\
""").encode() + b"""
to change:
  flow 1: 80 cells for 1, or 120 if this is its last link

passes: the link takes this plan; slots left in a frame: 14 of 64; \
places left in the buffer: 3827 of 4095
"""

# Plans of one flow: share and F beside the lines of its rate and of the rest.
# 1/3 is 33.33 and 2/3 is 66.66; 3/16 is 18.75, half way, and goes up, and so
# does 13/16, 81.25; 63/64 is 98.4375.
RATES = [
    (1, 1, "1/1  100.0", "0/1    0.0"),
    (64, 64, "64/64  100.0", "0/64    0.0"),
    (1, 3, "1/3   33.3", "2/3   66.7"),
    (3, 16, "3/16   18.8", "13/16   81.3"),
    (63, 64, "63/64   98.4", "1/64    1.6"),
    (1, 2, "1/2   50.0", "1/2   50.0"),
]

# Plans that are refused though their bytes can be told apart: the refusal,
# the bytes, and lines that have to be printed.
STANDING = [
    (6, call_bytes.plan(4, 2, 4, [(2, 2, 1, 9), (3, 2, 2, 9)]),
     ["   1      3      2       2            9",
      "left     -1      0  of F and of N"]),
    (7, call_bytes.plan(4, 2, 3, [(2, 2, 1, 9), (2, 2, 2, 9)]),
     ["N 3, places in the buffer", "left      0     -1  of F and of N"]),
    (5, call_bytes.plan(4, 2, 4, [(2, 2, 1, 9), (2, 2, 1, 9)]),
     ["   0      2      2       1            9",
      "   1      2      2       1            9"]),
    (4, call_bytes.plan(4, 2, 4, [(5, 255, 200, 200)]),
     ["   0      5    255     200          200",
      "left     -1   -251  of F and of N"]),
    # The high byte counts: 4,096 is 10 00 in hexadecimal.
    (3, call_bytes.plan(65535, 256, 4096, [(1, 1, 1, 9)]),
     ["F 65535, slots to a frame", "W 256, frames in the window",
      "N 4096, places in the buffer", "left  65534   4095  of F and of N"]),
    (3, call_bytes.plan(0, 2, 4, [(1, 1, 1, 9)]),
     ["F 0, slots to a frame", "left     -1      3  of F and of N"]),
]


# ---- plans that pass

def check_a_file(tree):
    return trouble(tree.start("--check", tree.file, cwd="/"), output=CHECKED)


def check_what_is_left(tree):
    path = tree.write("roomy", ROOMY)
    return trouble(tree.start("--check", path), output=ROOMY_CHECKED)


def check_standard_input(tree):
    return trouble(tree.start("--check", "-", input=BASE), output=CHECKED)


def check_rates(tree):
    for share, frame, rate, rest in RATES:
        data = call_bytes.plan(frame, 2, 1, [(share, 1, 1, 9)])
        ended = tree.start("--check", "-", input=data)
        rates = ended.output.decode().split("share over F\n")[-1]
        lines = rates.splitlines()[:2]
        wrong = trouble(ended) or (
            [line.split(None, 1) for line in lines]
            != [["0", rate + " %"], ["left", rest + " %"]] and lines)
        if wrong:
            return "%d of %d: %s" % (share, frame, wrong)
    return None


def check_sixteen_flows(tree):
    """Every share is 4 of 64, 6.25, which is half way and goes up."""
    data = call_bytes.plan(64, 4, 16, [(4, 1, flow, 63)
                                       for flow in range(16)])
    ended = tree.start("--check", "-", input=data)
    count = ended.output.count(b"   4/64    6.3 %\n")
    return trouble(ended) or count != 16 and "%d flows" % count


def check_with_the_usual_tools(tree):
    tree.only_tools()
    return trouble(tree.start("--check", tree.file), output=CHECKED)


# ---- plans that are refused

def check_refusals(tree):
    """Status 1, what is refused and here, and what to do about a plan, which
    but for 1 is all."""
    for number, data, last in refusals_page.examples():
        if last.startswith("P"):
            ended = tree.start("--check", "-", input=data)
            wrong = trouble(
                ended, REFUSED, b"" if number < 3 else None,
                "plan: standard input is refused with %d: %s"
                % (number, OF_THE_PAGE[number]),
                "plan: " + what_to_do(number)) or (
                number > 1 and not ended.errors.endswith(
                    what_to_do(number) + "\n") and ended.errors)
            if wrong:
                return "refusal %d: %s" % (number, wrong)
    return None


def check_numbers_as_they_stand(tree):
    for number, data, lines in STANDING:
        ended = tree.start("--check", "-", input=data)
        printed = ended.output.decode().splitlines()
        missing = [line for line in lines if line not in printed]
        said = ended.errors.splitlines()
        wrong = (ended.status != REFUSED or "refused with %d: " % number
                 not in said[0] or what_to_do(number) not in said[-1]) and (
            ended.errors) or (
            (missing or not printed[0].startswith("refused; ")
             or "passes" in ended.output.decode()) and "%s" % printed)
        if wrong:
            return "refusal %d: %s" % (number, wrong)
    return None


def check_a_call_file(tree):
    """A plan with calls after it is no plan file: it is said what plays it,
    and how its plan is checked, which is so."""
    path = tree.write("a file", BASE + call_bytes.TICK)
    advice = "a file of calls, which begins with a plan, is played by " \
        "./play; its plan is its first 20 bytes: head -c 20 %s | ./plan " \
        "--check -"
    named = advice % ("'%s'" % path)
    return trouble(
        tree.start("--check", "-", input=BASE + call_bytes.TICK), REFUSED, b"",
        "standard input is refused with 1: ", advice % "FILE") or trouble(
        tree.start("--check", path), REFUSED, b"", "is refused with 1: ",
        named) or trouble(start(["sh", "-c", named.split("bytes: ")[1]],
                                cwd=tree.root), output=CHECKED)


def check_other_files(tree):
    """What states another length than 12 to 76, or is short, has no plan at
    its beginning."""
    for data in (b"", BASE[:19], b"\x0b\0" + 30 * b"\0",
                 b"\x4d\0" + 99 * b"\0"):
        said = tree.start("--check", "-", input=data).errors
        if "head -c" in said:
            return "%r: %s" % (data[:9], said)
    return None


def check_a_long_file(tree):
    return trouble(tree.start("--check", ROOT / "README.md"), REFUSED, b"",
                   "README.md' is no plan: a plan has at most 76 bytes, and "
                   "this file has more than can be read as one; a file of "
                   "calls is played by ./play") or trouble(
        tree.start("--check", ROOT / "flights/dense"), REFUSED, b"",
        "played by ./play; its plan is its first 76 bytes: head -c 76 ")


def check_without_the_page(tree):
    (tree.root / "docs/REFUSALS.md").unlink()
    return trouble(tree.start("--check", "-", input=b""), REFUSED, b"",
                   "standard input is refused with 1: see docs/REFUSALS.md",
                   "what to do: a file of calls, which begins with a plan")


# ---- what can't be looked at

def check_no_file(tree):
    for words, says in (
            (["nowhere"], "there is no file 'nowhere'"),
            ([tree.root], "is a directory, not a plan file"),
            ([], "--check takes one file, and 0 are named"),
            (["a", "b"], "--check takes one file, and 2 are named")):
        wrong = trouble(tree.start("--check", *words), NOT_DONE, b"", says)
        if wrong:
            return wrong
    return None


def check_output_lost(tree):
    """Of a plan that passes and of one that is refused."""
    bad = tree.write("bad", STANDING[0][1])
    for path in (tree.file, bad):
        ways = [(">&-", "standard output is closed")]
        if os.path.exists("/dev/full"):
            ways.append((">/dev/full", "output was lost"))
        for way, says in ways:
            wrong = trouble(start(redirected(
                way, tree.command, "--check", path)), NOT_DONE, b"", says)
            if wrong:
                return "%s: %s" % (way, wrong)
    return trouble(start(redirected(">&-", tree.command, "--help")),
                   NOT_DONE, b"", "output was lost")


def check_odd_answers(tree):
    """What domeplan never answers is not printed."""
    for answer in ("", "nothing", "R", "R x", "R 8", "R 1\\n2", "plan 4 2",
                   "plan 4 2 x", "plan 0 2 4 1 1 1 9"):
        tree.instead("cat >/dev/null\nprintf '%s\\n'\n" % answer)
        ended = tree.start("--check", tree.file)
        if (ended.status != NOT_DONE or ended.output
                or "plan: domeplan answered '" not in ended.errors):
            return "%r: status %d, %r, %s" % (
                answer, ended.status, ended.output, ended.errors)
    return None


def help_fits_a_screen(tree):
    lines = tree.start("--help").output.decode().splitlines()
    widest = max(map(len, lines))
    return (len(lines) > 40 or widest > 80) and "%d lines of %d" % (
        len(lines), widest)


TESTS = (
    check_a_file, check_what_is_left, check_standard_input, check_rates,
    check_sixteen_flows, check_with_the_usual_tools, check_refusals,
    check_numbers_as_they_stand, check_a_call_file, check_other_files,
    check_a_long_file,
    check_without_the_page, check_no_file, check_output_lost,
    check_odd_answers, help_fits_a_screen,
)


def tests(programs):
    return in_trees(TESTS, programs)

"""./plan --extras, --count, --at and --fits: domeplan's answers in words, by
names, and what is refused."""

import call_bytes
from front_door.command import trouble
from front_door.plan_tree import DONE, NOT_DONE, REFUSED, in_trees

# Words of ./plan, and what is printed.
PRINTED = [
    # The set of layers 1 and 2, mask 6, is worth 60; all eight sets are
    # looked at.
    ("--extras 4 8  3 40  2 30  2 30", """\
layer  share  worth
    0      3     40  off
    1      2     30  on
    2      2     30  on
switch on layers 1 and 2: 4 of 4 slots, worth 60
no set that fits is worth more
"""),
    # docs/DESK.md has the ceiling.
    ("--extras 4 7  comet 3 40  moon 2 30  constellations 2 30", """\
         layer  share  worth
         comet      3     40  off
          moon      2     30  on
constellations      2     30  on
switch on layers moon and constellations: 4 of 4 slots, worth 60
the best of 7 sets; no set that fits is worth more than 100
"""),
    ("--extras 3 2  comet 3 40", """\
layer  share  worth
comet      3     40  on
switch on layer comet: 3 of 3 slots, worth 40
no set that fits is worth more
"""),
    ("--extras 1 2  2 40", """\
layer  share  worth
    0      2     40  off
switch on no layer: 0 of 1 slot, worth 0
no set that fits is worth more
"""),
    ("--extras 9 8  1 1  a 2 2  b 3 3", """\
layer  share  worth
    0      1      1  on
    a      2      2  on
    b      3      3  on
switch on layers 0, a and b: 6 of 9 slots, worth 6
no set that fits is worth more
"""),
    # Pairs that add to at most 4: 3 + 2 + 1.
    ("--count 4 2", "of 16 lists of 2 shares, each 1 to 4: 6 fit a frame of 4 "
     "slots, 10 don't; 37.5 % fit\n"),
    ("--count 1 1", "of 1 list of 1 share, each 1 to 1: 1 fit a frame of 1 "
     "slot, 0 don't; 100.0 % fit\n"),
    ("--count 2 3", "of 8 lists of 3 shares, each 1 to 2: 0 fit a frame of 2 "
     "slots, 8 don't; 0.0 % fit\n"),
    ("--at 1210  1200 1275 7", "mon 20:10: plan 7 runs, from mon 20:00 to mon "
     "21:15\n"),
    ("--at mon 20:00  1200 1275 7", "mon 20:00: plan 7 runs, from mon 20:00 "
     "to mon 21:15\n"),
    # A showing ends before its end, and two with one plan are told apart.
    ("--at mon 21:15  2640 2715 7  1200 1275 7",
     "mon 21:15: dark until tue 20:00, when plan 7 starts\n"),
    ("--at tue 20:30  1200 1275 7  2640 2715 7",
     "tue 20:30: plan 7 runs, from tue 20:00 to tue 21:15\n"),
    ("--at sun 23:59  1200 1275 7", "sun 23:59: dark until the week ends\n"),
]

MEND = "what to do: mend that number; a layer that takes more than the slots " \
    "left is no fault"
# Words, and the sentences of a refusal.
REFUSALS = [
    ("--extras 4 0  3 40", [
        "the choice is refused with 27: no set is to be looked at; here there "
        "are 0", MEND]),
    ("--extras 65 8  3 40", [
        "the choice is refused with 27: more than 64 slots are left; here 65 "
        "are", MEND]),
    ("--extras 4 8  comet 3 4000  0 1  moon 65 1", [
        "the choice is refused with 27: a layer's worth is above 1,000; here "
        "layer comet has 4000",
        "and then with 27: a layer's share is not 1 to 64; here layer 1 has 0",
        "and then with 27: a layer's share is not 1 to 64; here layer moon "
        "has 65", MEND]),
    ("--extras 4 8" + "  1 1" * 13, [
        "the choice is refused with 27: there are more than 12 layers; here "
        "there are 13", MEND]),
    ("--count 17 9", [
        "the count is refused with 26: F is not 1 to 16; here F is 17",
        "and then with 26: the flows are not 1 to 8; here there are 9",
        "what to do: ask with F from 1 to 16 and n from 1 to 8"]),
    ("--count 16 0", [
        "the count is refused with 26: the flows are not 1 to 8; here there "
        "are 0", "what to do: ask with F from 1 to 16 and n from 1 to 8"]),
    ("--at 10080  1200 1275 7", [
        "the minute is refused with 28: it is not 0 to 10,079; here it is "
        "10080", "what to do: mend that entry, or the minute; a showing over "
        "the end of the week is two entries"]),
]

# Words that are no question, and words of the sentence.
NO_TIME = "--at takes a minute of the week, or a day and a time as mon 20:15, "
WRONG = [
    ("--extras", "a number is missing"),
    ("--extras 4", "a number is missing"),
    ("--extras 4 8 3", "a number is missing"),
    ("--extras 4 8 comet", "a number is missing"),
    ("--extras 4 8 comet 3 x", "'x' is no number"),
    ("--extras 4 8 -3 40", "'-3' is no number"),
    ("--extras 4 8 a 3 40 a 3 40", "the name a stands twice"),
    ("--count 4", "--count takes F and how many flows there are, and 1 is"),
    ("--count 4 2 2", "and 3 are given"),
    ("--count 4 x", "'x' is no number"),
    ("--at", NO_TIME + "and '' is none"),
    ("--at mon 24:01 1200 1275 7", NO_TIME + "and 'mon 24:01' is none"),
    ("--at mon 20:60", NO_TIME + "and 'mon 20:60' is none"),
    ("--at moon 20:00", NO_TIME + "and 'moon 20:00' is none"),
    ("--at week.txt", NO_TIME + "and 'week.txt' is none"),
    ("--at mon 20:00 1200 1275", "a start, an end and a plan for each"),
    ("--at sat 23:30", "--at asks about a week, and none is named: give its "
     "file, or a start, an end and a plan for each showing"),
    ("--at 0", "--at asks about a week, and none is named"),
    ("--fits", "--fits takes one file, and 0 are named"),
]

# Plans and what would fit: 14 slots and 255 of 3,827 places left; one slot
# and one place; slots but no place; 16 flows; N alone is wrong; and more.
FITS = [
    (call_bytes.plan(64, 4, 4095, [(9, 255, 0, 63), (40, 1, 63, 0),
                                   (1, 12, 5, 6)]), DONE,
     ["one more flow fits, with a share of up to 14 and up to 255 cells",
      "the smallest N with which it passes is 268, and N is 4095"]),
    (call_bytes.plan(4, 2, 4, [(1, 1, 0, 1), (2, 2, 0, 2)]), DONE,
     ["one more flow fits, with a share of up to 1 and up to 1 cell",
      "the smallest N with which it passes is 3, and N is 4"]),
    (call_bytes.plan(4, 2, 4, [(1, 2, 0, 1), (2, 2, 0, 2)]), DONE,
     ["no flow can be added: with the smallest, share 1 and 1 cell, the plan "
      "would be refused with 7: the cells add to more than N; here they add "
      "to 5, and N is 4",
      "the smallest N with which it passes is 4, and N is 4"]),
    (call_bytes.plan(64, 4, 64, [(1, 1, node, 63) for node in range(16)]),
     DONE, ["no flow can be added: with the smallest, share 1 and 1 cell, the "
            "plan would be refused with 2: n is not 1 to 16; here n is 17",
            "the smallest N with which it passes is 16, and N is 64"]),
    (call_bytes.plan(4, 2, 3, [(1, 2, 0, 1), (2, 2, 0, 2)]), REFUSED,
     ["the smallest N with which it passes is 4, and N is 3"]),
    (call_bytes.plan(4, 2, 3, [(1, 2, 0, 1), (9, 2, 0, 2)]), REFUSED,
     ["with no N the plan passes: N is not all that is wrong"]),
]


def in_words(tree):
    for words, printed in PRINTED:
        wrong = trouble(tree.start(*words.split()), output=printed.encode())
        if wrong:
            return "%s: %s" % (words, wrong)
    return None


def a_time_in_one_word(tree):
    return trouble(tree.start("--at", "mon 20:10", "1200", "1275", "7"),
                   output=PRINTED[8][1].encode())


def refused_words(tree):
    """Status 1, what is wrong by itself, all of it, and what to do."""
    for words, lines in REFUSALS:
        ended = tree.start(*words.split())
        if (ended.status, ended.output) != (REFUSED, b"") or (
                ended.errors.splitlines() != ["plan: " + line
                                              for line in lines]):
            return "%s: status %d, %s" % (words, ended.status, ended.errors)
    return None


def wrong_question_words(tree):
    for words, says in WRONG:
        wrong = trouble(tree.start(*words.split(), cwd=tree.root), NOT_DONE,
                        b"", says)
        if wrong:
            return "%s: %s" % (words, wrong)
    return None


def what_would_fit(tree):
    """And what is refused, as --check says it."""
    for data, status, lines in FITS:
        ended = tree.start("--fits", "-", input=data)
        said = tree.start("--read", "-", input=data).errors
        if (ended.status, ended.output.decode().splitlines(),
                ended.errors) != (status, lines, said):
            return "%r: status %d, %s, %s" % (data[6:], ended.status,
                                              ended.output, ended.errors)
    return None


def what_fits_passes(tree):
    """With the flow and the N that are told the plan passes, and with one
    more it does not."""
    flows = "1 1 1 9  2 2 2 9".split()
    for words, passes in (
            (["8", "2", "9", *flows, "5", "6", "0", "1"], True),
            (["8", "2", "9", *flows, "6", "6", "0", "1"], False),
            (["8", "2", "9", *flows, "5", "7", "0", "1"], False),
            (["8", "2", "3", *flows], True), (["8", "2", "2", *flows], False)):
        if (tree.start(*words).status == DONE) != passes:
            return "%s" % words
    data = call_bytes.plan(8, 2, 9, [(1, 1, 1, 9), (2, 2, 2, 9)])
    return trouble(tree.start("--fits", "-", input=data), output=(
        b"one more flow fits, with a share of up to 5 and up to 6 cells\n"
        b"the smallest N with which it passes is 3, and N is 9\n"))


def what_is_no_plan(tree):
    """Its bytes can't be told apart, and nothing fits."""
    return trouble(tree.start("--fits", "-", input=b"\x0b\0"), REFUSED, b"",
                   "standard input is refused with 1: ", "what to do: ")


def odd_words(tree):
    """What domeplan never answers is not printed."""
    for words, answers in (
            ("--extras 4 8 3 40", ("", "1 2", "2 40 40", "1 40 x", "ok")),
            ("--count 4 2", ("", "6", "6 10 1", "R x", "R 3")),
            ("--at 0 0 5 7", ("", "plan", "plan x", "light"))):
        for answer in answers:
            tree.instead("cat >/dev/null\necho '%s'\n" % answer)
            ended = tree.start(*words.split())
            if (ended.status != NOT_DONE or ended.output
                    or not ended.errors.startswith("plan: domeplan ")):
                return "%s, %r: status %d, %r, %s" % (
                    words, answer, ended.status, ended.output, ended.errors)
    return None


# Limits that --help tells, with words on both sides of each.
OF_HELP = (
    "--count takes F of 1 to 16 and 1 to 8 FLOWS; --extras up to 64 slots "
    "LEFT, 1 or more SETS to look at, and up to 12 layers with a SHARE of 1 to "
    "64 and a WORTH of up to 1,000.")
WITHIN = ("--count 1 1", "--count 16 8", "--extras 64 1", "--extras 0 1 64 1000",
          "--extras 0 1 1 0", "--extras 64 1" + 12 * " 1 1")
BEYOND = ("--count 0 1", "--count 17 8", "--count 16 0", "--count 16 9",
          "--extras 65 1", "--extras 64 0", "--extras 0 1 0 1",
          "--extras 0 1 65 1", "--extras 0 1 1 1001",
          "--extras 64 1" + 13 * " 1 1")


def limits_of_the_help(tree):
    said = " ".join(tree.start("--help").output.decode().split())
    wrong = [words for words, status in (
        *((words, DONE) for words in WITHIN),
        *((words, REFUSED) for words in BEYOND))
        if tree.start(*words.split()).status != status]
    return OF_HELP not in said and said or wrong


TESTS = (in_words, limits_of_the_help, a_time_in_one_word, refused_words, wrong_question_words,
         what_would_fit, what_fits_passes, what_is_no_plan, odd_words)


def tests(programs):
    return in_trees(TESTS, programs)

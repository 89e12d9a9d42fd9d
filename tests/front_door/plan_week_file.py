"""./plan --week and --at with a week as text, whose plans are checked."""

import re

import call_bytes
from edges.edge_maker import BASE
from front_door.command import trouble
from front_door.plan_tree import NOT_DONE, REFUSED, in_trees

WEEK = """\
# this week
mon 20:00-21:15 evening.plan
sat 23:00-sun 01:00 late.txt   # over midnight

wed 0:00-24:00 shows/all.plan
"""
LATE = "plan F=4 W=2 N=4\nflow sky share=1 cells=1 from=1 to=9\n"
PRINTED = b"""\
mon 00:00 - mon 20:00 dark
mon 20:00 - mon 21:15 evening.plan
mon 21:15 - wed 00:00 dark
wed 00:00 - thu 00:00 shows/all.plan
thu 00:00 - sat 23:00 dark
sat 23:00 - sun 01:00 late.txt
sun 01:00 - sun 24:00 dark
"""
SHOWING = ("a showing is a day, two times and a plan file, as in mon "
           "20:00-21:15 evening.plan or sat 23:00-sun 01:00 late.plan, and "
           "this line has ")
# Lines that are no showing, beside what is quoted of them.
NO_SHOWING = [
    ("mon 20:00-21:15", "'mon 20:00-21:15'"),
    ("mon 20:00 21:15 evening.plan", "'mon 20:00 21:15 even..'"),
    ("moon 20:00-21:15 evening.plan", "'moon 20:00-21:15 eve..'"),
    ("Mon 20:00-21:15 evening.plan", "'Mon 20:00-21:15 even..'"),
    ("mon 20:00-24:01 evening.plan", "'mon 20:00-24:01 even..'"),
    ("mon 20:00-21:60 evening.plan", "'mon 20:00-21:60 even..'"),
    ("mon 20-21 evening.plan", "'mon 20-21 evening.pl..'"),
    ("mon 20:00-tue evening.plan", "'mon 20:00-tue evenin..'"),
    ("mon 20:00-21:15 evening.plan late.txt", "'mon 20:00-21:15 even..'"),
]
DAY = " (an end on another day names it: sat 23:00-sun 01:00)"
MIDNIGHT = ("a showing's start is not before its end; here line %d is from mon "
            "23:00 to mon 01:00" + DAY)
OVERLAP = ("two entries of the programme share a minute, whichever minute is "
           "asked about; here lines %d and %d")
BOTH = ("what to do: mend that entry, or the minute; a showing over the end "
        "of the week is two entries; let a showing end where the next one "
        "starts, or before")


def started(tree, text, *words):
    """How ./plan ends with a week beside its plans."""
    tree.write("weeks/this.week", text)
    tree.write("weeks/evening.plan", BASE)
    tree.write("weeks/late.txt", LATE)
    tree.write("weeks/shows/all.plan", BASE)
    tree.write("weeks/bad.plan", call_bytes.plan(4, 2, 3, [
        (2, 2, 1, 9), (2, 2, 2, 9)]))
    tree.write("weeks/bad.txt", LATE + "flaw\n")
    return tree.start(*(words or ("--week",)), "weeks/this.week",
                      cwd=tree.root)


def told(ended):
    return [re.sub("^plan: ('weeks/this.week': )?", "", line)
            for line in ended.errors.splitlines()]


def printed_by_names(tree):
    """In order of time; plans lie beside the week, as bytes or as text."""
    return trouble(started(tree, WEEK), output=PRINTED) or trouble(
        started(tree, "# nothing\n"),
        output=b"mon 00:00 - sun 24:00 dark\n") or trouble(
        tree.start("--week", "-", input=WEEK.encode(),
                   cwd=tree.root / "weeks"), output=PRINTED)


def at_a_time(tree):
    for words, line in (
            (["--at", "mon", "20:10"],
             "mon 20:10: evening.plan runs, from mon 20:00 to mon 21:15"),
            (["--at", "sun 00:30"],
             "sun 00:30: late.txt runs, from sat 23:00 to sun 01:00"),
            (["--at", "0"],
             "mon 00:00: dark until mon 20:00, when evening.plan starts"),
            (["--at", "sun", "01:00"],
             "sun 01:00: dark until the week ends")):
        wrong = trouble(started(tree, WEEK, *words), output=(
            line + "\n").encode())
        if wrong:
            return "%s: %s" % (words, wrong)
    return None


def lines_that_are_none(tree):
    """All at once, by line; nothing is printed."""
    text = "".join(line + "\n" for line, _ in NO_SHOWING)
    ended = started(tree, text)
    right = ["line %d: %s%s" % (number, SHOWING, quoted) for number, (
        _, quoted) in enumerate(NO_SHOWING, 1)]
    return (ended.status != NOT_DONE or ended.output or told(ended) != right
            ) and "%s" % told(ended)


def plans_are_checked(tree):
    """One that is refused, one that is no text of a plan, and one that isn't
    there; each once, however often it runs."""
    ended = started(tree, "mon 20:00-21:00 bad.plan\ntue 20:00-21:00 bad.plan\n"
                    "wed 20:00-21:00 evening.plan\n")
    refused = "line 1: 'bad.plan' is refused with 7: the cells add to more " \
        "than N; here they add to 4, and N is 3; ./plan --check " \
        "'weeks/bad.plan' says more"
    if (ended.status, ended.output, told(ended)) != (REFUSED, b"", [refused]):
        return "status %d, %s" % (ended.status, ended.errors)
    ended = started(tree, "mon 20:00-21:00 bad.txt\n# no\ntue 20:00-21:00 "
                    "nowhere.plan\nwed 20:00-21:00 shows\n")
    return (ended.status != NOT_DONE or ended.output or told(ended) != [
        "line 1: 'bad.txt': line 3: a line begins with plan or flow, and this "
        "one with 'flaw'",
        "line 3: there is no file 'weeks/nowhere.plan'",
        "line 4: 'weeks/shows' is a directory, not a plan file"]) and (
            "status %d, %s" % (ended.status, ended.errors))


def all_at_once(tree):
    """Entries, plans and lines, the programme's refusal first."""
    ended = started(tree, "mon 23:00-01:00 evening.plan\n"
                    "tue 20:00-21:00 evening.plan\n# no\n"
                    "tue 20:30-20:45 bad.plan\ntue 20:59-21:30 late.txt\n"
                    "wed\n")
    lines = told(ended)
    return (ended.status != NOT_DONE or lines[:4] != [
        "'weeks/this.week' is refused with 28: " + MIDNIGHT % 1,
        "and then with 29: " + OVERLAP % (2, 4),
        "and then with 29: " + OVERLAP % (2, 5), BOTH]
        or not lines[4].startswith("line 4: 'bad.plan' is refused with 7: ")
        or lines[5:] != ["line 6: " + SHOWING + "'wed'"]) and (
            "status %d, %s" % (ended.status, ended.errors))


def too_many(tree):
    """65 showings of a minute each, which touch."""
    text = "".join("mon %02d:%02d-%02d:%02d late.txt\n" % (
        minute // 60, minute % 60, (minute + 1) // 60, (minute + 1) % 60)
        for minute in range(65))
    return trouble(started(tree, text), REFUSED, b"", "is refused with 28: "
                   "the programme has more than 64 entries; here there are 65",
                   "what to do: ")


def no_week(tree):
    tree.write("long", "# more\n" * 10000)
    for words, says in (
            (["--week", "nowhere"],
             "'nowhere' is no number, and there is no file of that name"),
            (["--week", "target"], "'target' is a directory, not a week's"),
            (["--week", "long"], "'long' has more than 65,536 bytes"),
            (["--week", "long", "long"], "'long' is no number")):
        wrong = trouble(tree.start(*words, cwd=tree.root), NOT_DONE, b"", says)
        if wrong:
            return "%s: %s" % (words, wrong)
    return None


TESTS = (printed_by_names, at_a_time, lines_that_are_none, plans_are_checked,
         all_at_once, too_many, no_week)


def tests(programs):
    for name, test in in_trees(TESTS, programs):
        yield name.replace("plan:", "plan --week:"), test

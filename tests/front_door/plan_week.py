"""./plan --week: a programme printed for people, and what is refused."""

from front_door.command import redirected, start, trouble
from front_door.plan_tree import NOT_DONE, REFUSED, in_trees
from front_door.remedies import what_to_do
from generator import asked_programmes
from generator.dice import Dice

DAYS = "mon tue wed thu fri sat sun".split()
RANDOM = 40                     # programmes by chance

# Numbers beside the lines that they are printed as.
PRINTED = [
    # The line of the help page.
    ("1200 1275 7", ["mon 00:00 - mon 20:00 dark",
                     "mon 20:00 - mon 21:15 plan 7",
                     "mon 21:15 - sun 24:00 dark"]),
    ("", ["mon 00:00 - sun 24:00 dark"]),
    ("0 10080 7", ["mon 00:00 - sun 24:00 plan 7"]),
    ("0 1 0", ["mon 00:00 - mon 00:01 plan 0",
               "mon 00:01 - sun 24:00 dark"]),
    ("10079 10080 65535", ["mon 00:00 - sun 23:59 dark",
                           "sun 23:59 - sun 24:00 plan 65535"]),
    # Entries that touch have nothing between them, and stay two.
    ("0 5040 5  5040 10080 5", ["mon 00:00 - thu 12:00 plan 5",
                                "thu 12:00 - sun 24:00 plan 5"]),
    # In order of time, whatever the order of the numbers: 9 before 10.
    ("1000 10080 3  9 10 1  10 11 2",
     ["mon 00:00 - mon 00:09 dark", "mon 00:09 - mon 00:10 plan 1",
      "mon 00:10 - mon 00:11 plan 2", "mon 00:11 - mon 16:40 dark",
      "mon 16:40 - sun 24:00 plan 3"]),
    # A day each: midnight is 00:00 but for the week's end.
    ("8640 10080 7  0 1440 1  1440 2880 2  2880 4320 3  4320 5760 4  "
     "5760 7200 5  7200 8640 6",
     ["mon 00:00 - tue 00:00 plan 1", "tue 00:00 - wed 00:00 plan 2",
      "wed 00:00 - thu 00:00 plan 3", "thu 00:00 - fri 00:00 plan 4",
      "fri 00:00 - sat 00:00 plan 5", "sat 00:00 - sun 00:00 plan 6",
      "sun 00:00 - sun 24:00 plan 7"]),
    # Zeros in front are not octal, and not printed.
    ("010 0019 008", ["mon 00:00 - mon 00:10 dark",
                      "mon 00:10 - mon 00:19 plan 8",
                      "mon 00:19 - sun 24:00 dark"]),
    # From one day into the next.
    ("1439 1500 9", ["mon 00:00 - mon 23:59 dark",
                     "mon 23:59 - tue 01:00 plan 9",
                     "tue 01:00 - sun 24:00 dark"]),
]

# Numbers beside the refusal that rule 19.2 gives them, and the entry or the
# entries that are named.
NOT_BEFORE = "a showing's start is not before its end; here entry %d is from "
OUTSIDE = ("a showing ends after the week, which ends at minute 10,080; here "
           "entry %d is from ")
SHARED = ("two entries of the programme share a minute, whichever minute is "
          "asked about; here entries ")
REFUSALS = [
    ("10 10 7", 28, NOT_BEFORE % 1 + "10 to 10"),
    ("20 10 7", 28, NOT_BEFORE % 1 + "20 to 10"),
    ("0 10081 7", 28, OUTSIDE % 1 + "0 to 10081"),
    ("10000 100 7", 28, NOT_BEFORE % 1 + "10000 to 100"),
    ("0 999999999 7", 28, OUTSIDE % 1 + "0 to 999999999"),
    ("0 08 5  010 0009 6", 28, NOT_BEFORE % 2 + "10 to 9"),
    ("0 10 5  5 20 6", 29, SHARED + "1 and 2"),
    ("0 10 5  0 10 5", 29, SHARED + "1 and 2"),
    ("0 100 5  40 50 6", 29, SHARED + "1 and 2"),
    ("40 50 6  0 100 5", 29, SHARED + "1 and 2"),
    ("10 20 1  0 10 2  20 30 3  9 10 4", 29, SHARED + "2 and 4"),
    ("10 20 1  0 9 2  20 30 3  29 40 4", 29, SHARED + "3 and 4"),
]

# Numbers beside all that is told of them.
WITH, THEN = "the programme is refused with 28: ", "and then with "
SEVERAL = [
    ("0 10 5  5 20 6  30 30 7",
     [WITH + NOT_BEFORE % 3 + "30 to 30", THEN + "29: " + SHARED + "1 and 2"]),
    # The first entry that shares a minute.
    ("10 20 1  0 10 2  20 30 3  9 11 4  25 40 5",
     ["the programme is refused with 29: " + SHARED + "1 and 4",
      THEN + "29: " + SHARED + "3 and 5"]),
    # An entry that is wrong by itself shares the minutes of the week in which
    # it runs.
    ("20000 10081 7  10079 10081 8  10079 10080 9  0 10080 9",
     [WITH + NOT_BEFORE % 1 + "20000 to 10081",
      THEN + "28: " + OUTSIDE % 1 + "20000 to 10081",
      THEN + "28: " + OUTSIDE % 2 + "10079 to 10081",
      THEN + "29: " + SHARED + "2 and 3", THEN + "29: " + SHARED + "2 and 4"]),
    # Too many is told with what is wrong by itself.
    ("5 5 7 " + "".join("%d %d 7 " % (minute, minute + 1)
                        for minute in range(64)),
     [WITH + NOT_BEFORE % 1 + "5 to 5",
      THEN + "28: the programme has more than 64 entries; here there are 65"]),
    # Of 65 the first 64 are looked at: 63 share the minute with the first.
    ("0 1 7 " * 65,
     [WITH + "the programme has more than 64 entries; here there are 65",
      *(THEN + "29: " + SHARED + "1 and %d" % entry
        for entry in range(2, 22)), "and 43 more"]),
]

COUNT = ("the numbers of a programme are a start, an end and a plan for each "
         "showing, and %s given")

# Words after --week, and words of the sentence.
WRONG = [
    (["1"], COUNT % "1 is"),
    (["1", "2"], COUNT % "2 are"),
    (["1", "2", "3", "4"], COUNT % "4 are"),
    ([""], "'' is no number, and there is no file of that name"),
    (["mon", "2", "3"], "'mon' is no number"),
    (["20:00", "21:15", "7"], "'20:00' is no number"),
    (["1", "2", "-3"], "'-3' is no number"),
    (["1", "2", "*"], "'*' is no number"),
    (["1 2 3"], "'1 2 3' is no number"),
    (["1", "2", "1000000000"], "'1000000000' has more than nine digits"),
    (["1", "2", "65536"],
     "domeplan doesn't take this: a plan's number is above 65,535"),
    (["1", "2", "3"] * 700, "domeplan doesn't take this: "),
]


def lines(text):
    return "".join(line + "\n" for line in text).encode()


def words_of(numbers):
    return ["--week", *numbers.split()]


# ---- programmes that are printed

def by_hand(tree):
    for numbers, printed in PRINTED:
        wrong = trouble(tree.start(*words_of(numbers), cwd="/"),
                        output=lines(printed))
        if wrong:
            return "%s: %s" % (numbers, wrong)
    return None


def sixty_four_showings(tree):
    """Of a minute each, every other minute, the last first."""
    numbers = " ".join("%d %d %d" % (2 * i, 2 * i + 1, i)
                       for i in reversed(range(64)))
    ended = tree.start(*words_of(numbers))
    printed = ended.output.splitlines()
    return trouble(ended) or (
        (len(printed), printed[-2], printed[-1]) != (
            128, b"mon 02:06 - mon 02:07 plan 63",
            b"mon 02:07 - sun 24:00 dark") and "%r" % printed[-2:])


def time_of(minute):
    """By day, hour and minute of a list of the whole week."""
    if minute == 10080:
        return "sun 24:00"
    return ["%s %02d:%02d" % (day, hour, past) for day in DAYS
            for hour in range(24) for past in range(60)][minute]


def spans(entries):
    """What runs from each minute at which something changes, told from the
    week marked minute by minute."""
    place = [None] * 10080
    for number, (start, end, _) in enumerate(entries):
        for minute in range(start, end):
            place[minute] = number
    bounds = [minute for minute in range(10080)
              if minute == 0 or place[minute] != place[minute - 1]]
    for start, end in zip(bounds, bounds[1:] + [10080]):
        number = place[start]
        yield "%s - %s %s" % (
            time_of(start), time_of(end),
            "dark" if number is None else "plan %d" % entries[number][2])


def by_chance(tree):
    for seed in range(RANDOM):
        entries = asked_programmes.apart(Dice(seed))
        numbers = " ".join(str(number) for entry in entries
                           for number in entry)
        wrong = trouble(tree.start(*words_of(numbers)),
                        output=lines(spans(entries)))
        if wrong:
            return "%s: %s" % (numbers[:80], wrong)
    return None


def no_tools_but_the_usual(tree):
    tree.only_tools()
    numbers, printed = PRINTED[0]
    return trouble(tree.start(*words_of(numbers)), output=lines(printed))


def closed_input_not_needed(tree):
    numbers, printed = PRINTED[0]
    return trouble(start(redirected("<&-", tree.command, *words_of(numbers))),
                   output=lines(printed))


# ---- programmes that are refused, and words that are none

def refused_programmes(tree):
    """Status 1, no line, what is refused, which entry it is, and what to
    do."""
    for numbers, refusal, here in REFUSALS:
        wrong = trouble(tree.start(*words_of(numbers)), REFUSED, b"",
                        "plan: the programme is refused with %d: %s"
                        % (refusal, here), what_to_do(refusal))
        if wrong:
            return "%s: %s" % (numbers[:40], wrong)
    return None


def all_at_once(tree):
    """The last line is what to do about each number."""
    for numbers, lines in SEVERAL:
        ended = tree.start(*words_of(numbers))
        *told, last = ended.errors.splitlines()
        if (ended.status, ended.output) != (REFUSED, b"") or told != [
                "plan: " + line for line in lines] or (
                not last.startswith("plan: what to do: ")):
            return "%s: %s" % (numbers[:40], ended.errors)
    return None


def wrong_programme_words(tree):
    for words, says in WRONG:
        wrong = trouble(tree.start("--week", *words), NOT_DONE, b"", says)
        if wrong:
            return "%s: %s" % (words[:4], wrong)
    return None


def odd_answers(tree):
    """What domeplan never answers of one entry is told as it is."""
    for answer in ("", "nothing", "ok ok", "R 28", "28 0", "28 0 3", "28 1 0",
                   "29 0 1", "30 0 0"):
        tree.instead("cat >/dev/null\nprintf '%s\\n'\n" % answer)
        wrong = trouble(tree.start("--week", "0", "5", "7"), NOT_DONE, b"",
                        "plan: domeplan answered '%s'" % answer)
        if wrong:
            return "%r: %s" % (answer, wrong)
    return None


TESTS = (by_hand, sixty_four_showings, by_chance, no_tools_but_the_usual,
         closed_input_not_needed, refused_programmes, all_at_once,
         wrong_programme_words, odd_answers)


def tests(programs):
    return in_trees([named(test) for test in TESTS], programs)


def named(test):
    """Its name says that it is of the week."""
    def of_the_week(tree):
        return test(tree)
    of_the_week.__name__ = "week " + test.__name__
    return of_the_week

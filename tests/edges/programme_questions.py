"""Edges of `programme`: a line of domeplan, and the answer that it has to get.

Answers are worked out by hand from rules 19.1 to 19.3.
"""


def filled(count, length=10):
    """Entries of so many minutes that touch, plan i for entry i."""
    return "".join(" %d %d %d" % (length * i, length * i + length, i)
                   for i in range(count))


def reversed_filled(count):
    return "".join(" %d %d %d" % (10 * i, 10 * i + 10, i)
                   for i in reversed(range(count)))


ROWS = [
    # No entry.
    ("no entry", "programme 0", "dark"),
    ("no entry, the last minute", "programme 10079", "dark"),
    ("no entry, a minute past the week", "programme 10080", "R 28"),
    # Rules 19.1 and 19.3: at the start, and up to the minute before the end.
    ("at the start", "programme 10 10 20 7", "plan 7"),
    ("before the start", "programme 9 10 20 7", "dark"),
    ("the last minute", "programme 19 10 20 7", "plan 7"),
    ("at the end", "programme 20 10 20 7", "dark"),
    ("one minute long", "programme 10 10 11 7", "plan 7"),
    # Entries that touch.
    ("touching, before", "programme 9 0 10 5 10 20 6", "plan 5"),
    ("touching, at the seam", "programme 10 0 10 5 10 20 6", "plan 6"),
    ("touching, after", "programme 20 0 10 5 10 20 6", "dark"),
    ("touching, the later one first", "programme 9 10 20 6 0 10 5",
     "plan 5"),
    ("three that touch, the middle one last",
     "programme 10 0 10 5 20 30 6 10 20 7", "plan 7"),
    # Any order.
    ("any order, a gap", "programme 100 200 300 1 0 100 2", "dark"),
    ("any order, the first in time", "programme 99 200 300 1 0 100 2",
     "plan 2"),
    ("any order, the last in time", "programme 200 200 300 1 0 100 2",
     "plan 1"),
    # The week's ends.
    ("from minute 0", "programme 0 0 1 7", "plan 7"),
    ("up to 10,080", "programme 10079 10079 10080 7", "plan 7"),
    ("the minute before it", "programme 10078 10079 10080 7", "dark"),
    ("the whole week, its first minute", "programme 0 0 10080 7", "plan 7"),
    ("the whole week, its last minute", "programme 10079 0 10080 7",
     "plan 7"),
    ("both ends of the week", "programme 10079 10079 10080 1 0 1 2",
     "plan 1"),
    # Plans' numbers.
    ("plan 0", "programme 5 0 10 0", "plan 0"),
    ("plan 65,535", "programme 5 0 10 65535", "plan 65535"),
    ("one plan twice", "programme 15 0 10 5 10 20 5", "plan 5"),
    ("zeros in front", "programme 000000005 00 010 007", "plan 7"),
    # Rule 19.2: 28, entries.
    ("no minute long", "programme 10 10 10 7", "R 28"),
    ("no minute long, at 0", "programme 0 0 0 7", "R 28"),
    ("no minute long, at the week's end", "programme 0 10080 10080 7",
     "R 28"),
    ("the end before the start", "programme 10 20 10 7", "R 28"),
    ("over the week's end", "programme 10 10000 100 7", "R 28"),
    ("an end of 10,081", "programme 0 10 10081 7", "R 28"),
    ("a start of 10,080", "programme 0 10080 10081 7", "R 28"),
    ("a start of 10,081", "programme 0 10081 10090 7", "R 28"),
    # What they would be in 16 bits: 10 to 20.
    ("an end of 65,556", "programme 15 10 65556 7", "R 28"),
    ("both ends 65,536 more", "programme 15 65546 65556 7", "R 28"),
    ("nine digits", "programme 0 0 999999999 7", "R 28"),
    ("the second entry", "programme 5 0 10 5 20 20 6", "R 28"),
    # 28: the minute.
    ("minute 10,080", "programme 10080 0 10080 7", "R 28"),
    ("minute 65,536", "programme 65536 0 10 7", "R 28"),
    ("minute 999,999,999", "programme 999999999 0 10 7", "R 28"),
    # 28: the count.
    ("64 entries, the first", "programme 0" + filled(64), "plan 0"),
    ("64 entries, the last", "programme 639" + filled(64), "plan 63"),
    ("64 entries, after them", "programme 640" + filled(64), "dark"),
    ("64 entries, the last first", "programme 639" + reversed_filled(64),
     "plan 63"),
    ("65 entries", "programme 0" + filled(65), "R 28"),
    ("100 entries", "programme 0" + filled(100), "R 28"),
    ("320 entries, a low byte of 64", "programme 0" + filled(320, 1),
     "R 28"),
    # 29.
    ("equal entries", "programme 5 0 10 5 0 10 5", "R 29"),
    ("equal but for the plan", "programme 5 0 10 5 0 10 6", "R 29"),
    ("one minute shared", "programme 0 0 11 5 10 20 6", "R 29"),
    ("one minute shared, the later one first",
     "programme 0 10 20 6 0 11 5", "R 29"),
    ("one within another", "programme 0 0 100 5 40 50 6", "R 29"),
    ("one around another", "programme 0 40 50 6 0 100 5", "R 29"),
    ("the same start", "programme 0 0 100 5 0 10 6", "R 29"),
    ("the same end", "programme 0 0 100 5 90 100 6", "R 29"),
    ("shared where nothing is asked", "programme 5000 0 10 5 5 20 6",
     "R 29"),
    ("shared, and another runs", "programme 50 0 10 5 5 20 6 40 60 7",
     "R 29"),
    ("not of neighbours in the line",
     "programme 250 0 100 1 200 300 2 50 60 3", "R 29"),
    ("not of neighbours in time",
     "programme 0 0 100 1 10 20 2 30 40 3", "R 29"),
    ("the whole week twice", "programme 0 0 10080 1 0 10080 2", "R 29"),
    ("the week's last minute", "programme 0 10079 10080 1 0 10080 2",
     "R 29"),
    ("64 entries, the last two equal",
     "programme 0" + filled(63) + " 620 630 9", "R 29"),
    ("64 entries, the first and the last",
     "programme 600" + filled(63) + " 9 10 9", "R 29"),
    # 28 before 29.
    ("28 of the last before 29 of the first two",
     "programme 50 0 10 5 5 20 6 30 30 7", "R 28"),
    ("28 of the first before 29 of the last two",
     "programme 50 30 30 7 0 10 5 5 20 6", "R 28"),
    ("28 of the minute before 29", "programme 10080 0 10 5 5 20 6", "R 28"),
    ("28 of 65 entries before 29", "programme 0" + filled(64) + " 0 5 1",
     "R 28"),
    ("28 of an entry that holds another", "programme 5 0 10081 1 5 10 2",
     "R 28"),
]

# Lines that are no question.
FAULTS = [
    ("no minute", "programme"),
    ("a blank alone", "programme "),
    ("an entry of one number", "programme 5 0"),
    ("an entry of two numbers", "programme 5 0 10"),
    ("a number too many", "programme 5 0 10 7 20"),
    ("two numbers too many", "programme 5 0 10 7 20 30"),
    ("plan 65,536", "programme 5 0 10 65536"),
    ("plan 65,543, were it cut off 7", "programme 5 0 10 65543"),
    ("plan 65,536 of the second entry", "programme 5 0 10 7 10 20 65536"),
    ("plan 65,536 at a minute that is dark", "programme 50 0 10 65536"),
    ("plan 65,536 before 28", "programme 10080 10 10 65536"),
    ("plan 65,536 before 29", "programme 5 0 10 7 0 10 65536"),
    ("plan 65,536 of entry 65",
     "programme 0" + filled(64) + " 640 650 65536"),
    ("a minus sign", "programme -1 0 10 7"),
    ("a time of day", "programme 20:00 0 10 7"),
    ("ten digits", "programme 5 0 10 0000000007"),
    ("in capitals", "PROGRAMME 5 0 10 7"),
    ("program", "program 5 0 10 7"),
    ("programmes", "programmes 5 0 10 7"),
]

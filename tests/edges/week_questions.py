"""Edges of the word `week-faults`, worked out by hand."""


def filled(count):
    """Entries of ten minutes that touch, plan i for entry i."""
    return "".join(" %d %d %d" % (10 * i, 10 * i + 10, i)
                   for i in range(count))


# Rule 19.4: 28, the entry, and 0 where its start is not below its end, 1 where
# its end is above 10,080; 28, the count and 2; 29 and two entries.
FAULTS = [
    ("no entry", "week-faults", "ok"),
    ("the whole week", "week-faults 0 10080 7", "ok"),
    ("no minute long", "week-faults 10 10 7", "28 0 0"),
    ("one minute long", "week-faults 10 11 7", "ok"),
    ("the end before the start", "week-faults 20 10 7", "28 0 0"),
    ("an end of 10,081", "week-faults 10 10081 7", "28 0 1"),
    ("a start of 10,080", "week-faults 10080 10081 7", "28 0 1"),
    ("both", "week-faults 20000 10081 7", "28 0 0 28 0 1"),
    ("an end of 65,556, 20 in 16 bits", "week-faults 10 65556 7", "28 0 1"),
    ("the second entry", "week-faults 0 10 1 20 20 2", "28 1 0"),
    ("by entry, and then by limit",
     "week-faults 5 5 1 9 20000 2 20000 10090 3",
     "28 0 0 28 1 1 28 2 0 28 2 1"),
    # of more than 64 entries the first 64 are looked at
    ("64 entries", "week-faults" + filled(64), "ok"),
    ("65 entries", "week-faults" + filled(65), "28 65 2"),
    ("65 entries, the last of no minute",
     "week-faults" + filled(64) + " 9 9 9", "28 65 2"),
    ("65 entries, the last like the first",
     "week-faults" + filled(64) + " 0 10 9", "28 65 2"),
    ("65 entries, the first of no minute",
     "week-faults 9 9 9" + filled(64), "28 0 0 28 65 2"),
    ("65 entries, the second like the first",
     "week-faults 0 10 9" + filled(64), "28 65 2 29 0 1"),
    # 29: the first entry that shares a minute with each later one
    ("touching", "week-faults 0 10 5 10 20 6", "ok"),
    ("by one minute", "week-faults 0 11 5 10 20 6", "29 0 1"),
    ("the later one first", "week-faults 10 20 6 0 11 5", "29 0 1"),
    ("nested", "week-faults 0 100 5 40 50 6", "29 0 1"),
    ("around", "week-faults 40 50 6 0 100 5", "29 0 1"),
    ("of one plan", "week-faults 0 10 5 0 10 5", "29 0 1"),
    ("two with the first", "week-faults 0 90 1 0 20 2 10 20 3",
     "29 0 1 29 0 2"),
    ("the last two", "week-faults 50 90 1 0 20 2 10 20 3", "29 1 2"),
    ("past the week's end too", "week-faults 10079 10081 1 10079 10080 2",
     "28 0 1 29 0 1"),
    ("only past it", "week-faults 10080 10081 1 10080 10081 2",
     "28 0 1 28 1 1"),
    ("no minute long, inside another", "week-faults 0 100 1 50 50 2",
     "28 1 0"),
    ("backwards, around another", "week-faults 100 0 1 50 60 2", "28 0 0"),
    ("nine digits", "week-faults 0 999999999 1 5 999999999 2",
     "28 0 1 28 1 1 29 0 1"),
    ("plan 65,535", "week-faults 0 10 65535", "ok"),
    ("zeros in front", "week-faults 00 010 0007", "ok"),
]

# Lines that are no question.
NO_QUESTIONS = [
    ("week-faults with one number", "week-faults 0"),
    ("week-faults with two numbers", "week-faults 0 10"),
    ("week-faults with four numbers", "week-faults 0 10 7 20"),
    ("week-faults with a minute in front", "week-faults 5 0 10 7"),
    ("week-faults with plan 65,536", "week-faults 0 10 65536"),
    ("week-faults with plan 65,536 of entry 64",
     "week-faults" + filled(64) + " 640 650 65536"),
    ("week-faults with a blank at the end", "week-faults "),
    ("week-faults with ten digits", "week-faults 0 1000000000 7"),
    ("week-fault", "week-fault 0 10 7"),
    ("week", "week 0 10 7"),
    ("WEEK-FAULTS", "WEEK-FAULTS 0 10 7"),
]

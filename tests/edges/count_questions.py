"""Edges of the word `count`, worked out by hand from rule 17.1."""

# F, n and the two numbers, or the refusal.
COUNTS = [
    # Rule 17.1: 1 1, 1 2, 1 3, 2 1, 2 2 and 3 1 of 16 lists.
    ("four slots, two flows", "count 4 2", "6 10"),
    ("one slot for one flow", "count 1 1", "1 0"),
    # Each flow has a share of 1 at least.
    ("two flows in one slot", "count 1 2", "0 1"),
    ("eight flows in one slot", "count 1 8", "0 1"),
    ("one slot too few", "count 7 8", "0 5764801"),
    # Ones alone, and they fill the frame.
    ("as many flows as slots", "count 8 8", "1 16777215"),
    ("two flows in two slots", "count 2 2", "1 3"),
    # 26 lists are refused with 6, which is no refusal of the question.
    ("26 lists refused", "count 3 3", "1 26"),
    # 1 1, 1 2 and 2 1; a sum of F is still accepted.
    ("two flows in three slots", "count 3 2", "3 6"),
    # One flow alone always fits.
    ("one flow, F = 2", "count 2 1", "2 0"),
    ("one flow, F = 16", "count 16 1", "16 0"),
    # Read the other way round this is n = 9 in a frame of 1.
    ("F = 9, n = 1", "count 9 1", "9 0"),
    # 2 to the power 32 lists: in 32 bits there would be none.
    ("the most lists", "count 16 8", "12870 4294954426"),
    ("15 slots, 8 flows", "count 15 8", "6435 2562884190"),
    ("16 slots, 7 flows", "count 16 7", "11440 268424016"),
    ("zeros in front", "count 000000004 02", "6 10"),
    # Rule 17.2: 26.
    ("F = 0", "count 0 1", "R 26"),
    ("F = 17", "count 17 1", "R 26"),
    ("n = 0", "count 1 0", "R 26"),
    ("n = 9", "count 1 9", "R 26"),
    ("F and n 0", "count 0 0", "R 26"),
    ("F = 0, n = 9", "count 0 9", "R 26"),
    ("F = 17, n = 0", "count 17 0", "R 26"),
    ("F = 17, n = 9", "count 17 9", "R 26"),
    ("F = 16, n = 9", "count 16 9", "R 26"),
    ("F = 64, as a plan may have", "count 64 2", "R 26"),
    ("n = 16, as a plan may have", "count 16 16", "R 26"),
    # In the comments what they would be if they were cut off.
    ("F = 260", "count 260 2", "R 26"),                         # 4
    ("n = 258", "count 4 258", "R 26"),                         # 2
    ("F = 65540", "count 65540 2", "R 26"),                     # 4
    ("n = 65538", "count 4 65538", "R 26"),                     # 2
    ("nine digits", "count 999999999 999999999", "R 26"),
]

# Lines that are no question.
FAULTS = [
    ("count alone", "count"),
    ("count and a blank", "count "),
    ("count with F alone", "count 4"),
    ("count with F alone, out of range", "count 17"),
    ("count with three numbers", "count 4 2 1"),
    ("count with three numbers, out of range", "count 17 9 0"),
    ("count with a blank at the end", "count 4 2 "),
    ("count with two blanks", "count 4  2"),
    ("count with a sign", "count 4 -2"),
    ("count with a comma", "count 4,2"),
    ("count with a letter", "count 4 n"),
    ("count with ten digits", "count 4 0000000002"),
    ("Count", "Count 4 2"),
    ("counts", "counts 4 2"),
    ("coun", "coun 4 2"),
]

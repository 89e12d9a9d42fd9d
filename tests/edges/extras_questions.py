"""Edges of the word `extras`: a line, and the answer that it has to get.

Answers are worked out by hand from rules 18.1 to 18.3.
"""

FULL = 12 * " 5 1000"           # twelve layers that fit together in 60 slots
LONE = "".join(" 64 %d" % worth for worth in range(12))     # only one fits
POWERS = " 1 1 1 2 1 4"         # each set is worth its mask

EXTRAS = [
    # Rule 18.2: the budget counts every set looked at, also those that don't
    # fit.
    ("a set that doesn't fit uses up the budget",
     "extras 1 2 64 5 1 7", "0 0 7"),
    ("one set more", "extras 1 3 64 5 1 7", "2 7 7"),
    ("all four sets", "extras 1 4 64 5 1 7", "2 7 7"),
    # Rules 18.3 and 18.4: the ceiling is the worth when all sets were looked
    # at, and only then; with more sets worth 0, 5 and 5, ceilings 10, 10, 5.
    ("one set short of all", "extras 1 3 1 5 1 5", "1 5 10"),
    ("just all sets", "extras 1 4 1 5 1 5", "1 5 5"),
    ("one set alone", "extras 1 1 1 5 1 5", "0 0 10"),
    ("one set alone, and no layer that fits", "extras 3 1 4 5 5 5", "0 0 0"),
    ("a layer that fits in just the slots left adds to the ceiling",
     "extras 3 1 3 5 4 100", "0 0 5"),
    ("one layer and one set", "extras 64 1 1 7", "0 0 7"),
    ("one layer and both sets", "extras 64 2 1 7", "1 7 7"),
    # Ties: the lowest mask.
    ("a tie of single layers, the second takes less",
     "extras 2 4 2 5 1 5", "1 5 5"),
    ("a tie of two layers and one", "extras 3 8 1 2 2 3 3 5", "3 5 5"),
    ("a tie of one layer and the two after it",
     "extras 4 8 4 6 2 3 2 3", "1 6 6"),
    ("a worth of 0 stays out", "extras 2 4 1 0 1 3", "2 3 3"),
    ("a worth of 0 stays out at the end", "extras 2 4 1 3 1 0", "1 3 3"),
    ("worths of 0 alone", "extras 64 8 1 0 1 0 1 0", "0 0 0"),
    ("equal layers, two fit", "extras 5 16 2 9 2 9 2 9 2 9", "3 18 18"),
    # Bit i is layer i.
    ("the second layer", "extras 1 4 2 3 1 10", "2 10 10"),
    ("the first and the last of four",
     "extras 4 16 2 9 3 1 4 2 2 9", "9 18 18"),
    # Neither the greatest worth first, nor the most for a slot.
    ("two layers beat the best one", "extras 4 8 3 4 2 3 2 3", "6 6 6"),
    ("one layer beats two", "extras 4 8 4 9 2 3 2 3", "1 9 9"),
    ("less for a slot, but more in all", "extras 4 4 1 2 4 7", "2 7 7"),
    # Slots.
    ("no slots", "extras 0 2 1 5", "0 0 0"),
    ("no slots and one set", "extras 0 1 1 5", "0 0 0"),
    ("shares that just fit", "extras 64 4 32 1 32 1", "3 2 2"),
    ("shares that are one too many", "extras 63 4 32 1 32 1", "1 1 1"),
    ("the largest layer", "extras 64 2 64 1000", "1 1000 1000"),
    ("a share above the slots left is no fault",
     "extras 63 2 64 1000", "0 0 0"),
    ("shares that sum to 256, a low byte of 0",
     "extras 64 16 64 1 64 2 64 3 64 4", "8 4 4"),
    # No layers.
    ("no layers", "extras 0 1", "0 0 0"),
    ("no layers, and a large budget", "extras 64 999999999", "0 0 0"),
    # Twelve layers.
    ("twelve layers that fit together", "extras 64 4096" + FULL,
     "4095 12000 12000"),
    ("twelve layers, all sets but one", "extras 64 4095" + FULL,
     "2047 11000 12000"),
    ("twelve layers, one more than there are", "extras 64 4097" + FULL,
     "4095 12000 12000"),
    ("twelve layers, nine sets", "extras 64 9" + FULL, "7 3000 12000"),
    ("twelve layers of which one fits", "extras 64 4096" + LONE,
     "2048 11 11"),
    ("the last layer is one set away", "extras 64 2048" + LONE,
     "1024 10 66"),
    ("the last layer is looked at", "extras 64 2049" + LONE, "2048 11 66"),
    # Budgets beyond the number of sets; in the comments what they would be if
    # they were cut off.
    ("a budget of 256", "extras 1 256 1 5 1 5", "1 5 5"),           # 0
    ("a budget of 65,537", "extras 1 65537 1 5 1 5", "1 5 5"),      # 1
    ("a budget of nine digits", "extras 1 999999999 1 5 1 5", "1 5 5"),
    ("zeros in front", "extras 001 000000004 1 05 01 5", "1 5 5"),
    # Rule 18.1: 27.
    ("a budget of 0", "extras 1 0 1 5", "R 27"),
    ("a budget of 0 and no layers", "extras 1 0", "R 27"),
    ("13 layers", "extras 64 1" + 13 * " 1 1", "R 27"),
    ("13 layers, a budget for all", "extras 64 8192" + 13 * " 1 1", "R 27"),
    ("268 layers, a low byte of 12", "extras 64 1" + 268 * " 1 1", "R 27"),
    ("65 slots", "extras 65 4 1 5 1 5", "R 27"),
    ("65 slots and no layers", "extras 65 1", "R 27"),
    ("257 slots", "extras 257 4 1 5 1 5", "R 27"),                  # 1
    ("slots of nine digits", "extras 999999999 4 1 5", "R 27"),
    ("a share of 0", "extras 1 4 0 5 1 5", "R 27"),
    ("a share of 0 in the last layer", "extras 1 4 1 5 0 5", "R 27"),
    ("a share of 0 in a layer that no set looked at has",
     "extras 1 1 0 5", "R 27"),
    ("a share of 65", "extras 64 4 65 5 1 5", "R 27"),
    ("a share of 257", "extras 64 4 257 5 1 5", "R 27"),            # 1
    ("a worth of 1,001", "extras 64 4 1 1001 1 5", "R 27"),
    ("a worth of 65,541", "extras 64 4 1 65541 1 5", "R 27"),       # 5
    ("a worth of nine digits in layer 12",
     "extras 64 4096" + 11 * " 1 1" + " 1 999999999", "R 27"),
]
EXTRAS += [
    ("sets worth their masks, %d of 8" % budget,
     "extras 3 %d" % budget + POWERS,
     "%d %d 7" % (min(budget, 8) - 1, min(budget, 8) - 1))
    for budget in range(1, 11)]

FAULTS = [
    ("extras without numbers", "extras"),
    ("extras with a blank alone", "extras "),
    ("extras with one number", "extras 1"),
    ("a layer without its worth", "extras 1 4 1"),
    ("a second layer without its worth", "extras 1 4 1 5 1"),
    ("a budget of 0 and half a layer", "extras 1 0 1"),
    ("13 layers and a number", "extras 64 1" + 13 * " 1 1" + " 1"),
    ("extras with a letter", "extras 1 4 1 5 1 x"),
    ("extras with a minus sign", "extras 1 4 1 -5"),
    ("extras with a budget of ten digits", "extras 1 1000000000 1 5"),
    ("extras with 4 + 2^64", "extras 1 18446744073709551620 1 5"),
    ("extras with two blanks", "extras 1  4 1 5"),
    ("extras with a blank at the end", "extras 1 4 1 5 "),
    ("extra", "extra 1 4 1 5"),
    ("extrass", "extrass 1 4 1 5"),
    ("extras in capitals", "EXTRAS 1 4 1 5"),
    ("no blank after extras", "extras1 4 1 5"),
]

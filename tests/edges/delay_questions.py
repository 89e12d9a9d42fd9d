"""Edges of the word `delay`, worked out by hand."""

# F, links, share and burst; slots, cells and cells where tiles are shown.
DELAYS = [
    # Rule 23.1: three frames for two links, and two for three tiles by twos
    ("two links and a burst of three", "delay 4 2 2 3", "19 4 6"),
    ("one link", "delay 4 1 2 0", "7 4 6"),
    ("one slot, one link", "delay 1 1 1 0", "1 2 3"),
    ("a burst of one share", "delay 4 1 2 2", "11 4 6"),
    ("a burst of one share and a tile", "delay 4 1 2 3", "15 4 6"),
    ("a burst of one tile", "delay 4 1 4 1", "11 8 12"),
    ("fourteen links", "delay 16 14 4 0", "239 8 12"),
    ("the most slots", "delay 64 14 1 999", "64895 2 3"),
    ("the largest share", "delay 64 14 64 999", "1983 128 192"),
    ("zeros in front", "delay 0004 02 2 000000003", "19 4 6"),
    # refusals, the frame's first
    ("F = 0", "delay 0 1 1 0", "R 3"),
    ("F = 65", "delay 65 1 1 0", "R 3"),
    ("F = 0 and share 0", "delay 0 1 0 0", "R 3"),
    ("share 0", "delay 4 1 0 0", "R 4"),
    ("share above F", "delay 4 1 5 0", "R 4"),
    # In the comments what they would be if they were cut off.
    ("F = 260", "delay 260 1 1 0", "R 3"),                      # 4
    ("share 257", "delay 4 1 257 0", "R 4"),                    # 1
]

# Lines that are no question.
FAULTS = [
    ("delay alone", "delay"),
    ("delay with three numbers", "delay 4 2 2"),
    ("delay with five numbers", "delay 4 2 2 3 1"),
    ("no link", "delay 4 0 2 3"),
    ("fifteen links", "delay 4 15 2 3"),
    ("a burst of 1,000", "delay 4 2 2 1000"),
    ("no link and F = 0", "delay 0 0 2 3"),
    ("257 links", "delay 4 257 2 3"),                           # 1
    ("delay with a sign", "delay 4 2 2 -3"),
    ("delay with two blanks", "delay 4  2 2 3"),
    ("delay in capitals", "DELAY 4 2 2 3"),
]

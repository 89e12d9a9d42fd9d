"""Edges of the words `mesh` and `mesh-over`: a line, and the answer that it has
to get, worked out by hand from rules 16.1 to 16.3.

    0  1  2  3  4  5  6  7      the boards of the first rows; a stream goes along
    8  9 10 11 12 13 14 15      its source's row, then its destination's column
   16 17 18 19 20 21 22 23
"""


def times(count, stream):
    return " ".join(count * [stream])


# F and streams, whether they are admitted, and the links that are over.
SETS = [
    ("no stream, F = 1", "1", "ok", ""),
    ("no stream, F = 64", "64", "ok", ""),
    ("one stream of 14 links", "4 0 63 4", "ok", ""),
    ("two streams with the same ends", "2 0 1 1 0 1 1", "ok", ""),
    ("two streams with the same ends, over", "2 0 1 1 0 1 2", "R 25", "0 1 3"),
    # Rule 16.2, row first: both of these use the link from 1 to 9, and column
    # first they would meet in none.
    ("row first", "2 0 9 2 1 9 1", "R 25", "1 9 3"),
    # Column first both of these would use the link from 8 to 9.
    ("not column first", "2 0 9 2 8 9 1", "ok", ""),
    # Rule 16.1: the two directions are two links.
    ("the two directions of a row", "2 0 1 2 1 0 2", "ok", ""),
    ("the two directions of a column", "2 0 8 2 8 0 2", "ok", ""),
    ("ways that only cross", "1 8 10 1 1 17 1", "ok", ""),
    ("one way ends where the other starts", "1 0 1 1 1 2 1", "ok", ""),
    ("a row's end and the next row's start", "1 6 7 1 7 8 1 8 9 1", "ok", ""),
    ("the last link of a row", "2 0 2 2 1 2 1", "R 25", "1 2 3"),
    ("the first link of a row", "2 0 2 2 0 1 1", "R 25", "0 1 3"),
    ("the last link of a column", "2 0 16 2 8 16 1", "R 25", "8 16 3"),
    ("the first link of a column", "2 16 0 2 16 8 1", "R 25", "16 8 3"),
    ("to the west, the last link", "2 2 0 2 1 0 1", "R 25", "1 0 3"),
    ("to the west and then to the north", "1 63 0 1 56 0 1", "R 25",
     "8 0 2 16 8 2 24 16 2 32 24 2 40 32 2 48 40 2 56 48 2"),
    ("to the east and then to the south", "1 0 18 1 0 18 1", "R 25",
     "0 1 2 1 2 2 2 10 2 10 18 2"),
    ("all links of one board, by the board that they lead to",
     "1 9 17 1 9 10 1 9 8 1 9 1 1 9 17 1 9 10 1 9 8 1 9 1 1", "R 25",
     "9 1 2 9 8 2 9 10 2 9 17 2"),
    ("by the board that they leave first", "1 2 1 1 1 9 1 2 1 1 1 9 1",
     "R 25", "1 9 2 2 1 2"),
    ("two links, with other loads", "64 3 5 36 3 4 34 4 5 30", "R 25",
     "3 4 70 4 5 66"),
    # Shares that add to F, and to one more.
    ("64 of 64", "64 3 4 32 2 5 32", "ok", ""),
    ("65 of 64", "64 3 4 32 2 5 33", "R 25", "3 4 65"),
    ("1 of 1", "1 0 1 1", "ok", ""),
    ("2 of 1", "1 0 1 1 0 2 1", "R 25", "0 1 2"),
    # 320 is 64 modulo 256, and 256 is 0.
    ("320, whose low byte is 64", "64 " + times(5, "0 1 64"), "R 25",
     "0 1 320"),
    ("256, whose low byte is 0", "64 " + times(4, "0 1 64"), "R 25",
     "0 1 256"),
    ("64 streams of share 64", "64 " + times(64, "62 63 64"), "R 25",
     "62 63 4096"),
    ("64 streams of share 1", "64 " + times(64, "62 63 1"), "ok", ""),
    ("64 streams of share 1, F = 63", "63 " + times(64, "62 63 1"), "R 25",
     "62 63 64"),
    ("the first and the last stream meet", "1 0 1 1 1 2 1 2 3 1 0 1 1",
     "R 25", "0 1 2"),
    ("zeros in front of numbers", "02 000000000 009 2 1 9 1", "R 25", "1 9 3"),
]

# Rule 16.3: the first that applies, the same for both words.
REFUSED = [
    ("F = 0", "0", "R 3"),
    ("F = 65", "65", "R 3"),
    ("F = 320, whose low byte is 64", "320 0 1 1", "R 3"),
    ("share 0", "4 0 1 0", "R 4"),
    ("share F + 1", "4 0 1 5", "R 4"),
    ("share 257, whose low byte is 1", "4 0 1 257", "R 4"),
    ("source 64", "4 64 1 1", "R 4"),
    ("destination 64", "4 1 64 1", "R 4"),
    ("source 257, whose low byte is 1", "4 257 0 1", "R 4"),
    ("equal ends", "4 9 9 1", "R 4"),
    ("the last of three is wrong", "4 0 1 1 1 2 1 3 3 1", "R 4"),
    ("65 streams", "64 " + times(65, "0 1 1"), "R 25"),
    ("65 streams and F = 0", "0 " + times(65, "5 5 0"), "R 25"),
    ("65 wrong streams", "4 " + times(65, "5 5 0"), "R 25"),
    ("256 streams, a low byte of 0", "64 " + times(256, "0 1 1"), "R 25"),
    ("F = 0 and a wrong stream", "0 5 5 1", "R 3"),
    ("a link over and a wrong stream after it", "2 0 1 2 0 1 1 5 5 1", "R 4"),
    ("64 wrong streams", "4 " + times(64, "5 5 0"), "R 4"),
]

MESHES = ([(name, "mesh " + asked, answer)
           for name, asked, answer, _ in SETS]
          + [(name, "mesh " + asked, answer)
             for name, asked, answer in REFUSED])

OVERS = ([(name, "mesh-over " + asked, "over " + links if links else "ok")
          for name, asked, _, links in SETS]
         + [(name, "mesh-over " + asked, answer)
            for name, asked, answer in REFUSED])

FAULTS = [(name, word + rest)
          for word in ("mesh", "mesh-over")
          for name, rest in (
              ("%s alone" % word, ""), ("%s and a space" % word, " "),
              ("%s, a source alone" % word, " 4 0"),
              ("%s, a stream without a share" % word, " 4 0 1"),
              ("%s, a number too many" % word, " 4 0 1 1 2"),
              ("%s, two numbers too many" % word, " 4 0 1 1 2 3"),
              ("%s, a letter" % word, " 4 0 1 x"),
              ("%s, two spaces" % word, " 4  0 1 1"))]
FAULTS += [("a word that only begins like it", "meshes 4 0 1 1"),
           ("a word with a hyphen too few", "mesh over 4 0 1 1"),
           ("a word that is cut", "mesh-ove 4 0 1 1")]

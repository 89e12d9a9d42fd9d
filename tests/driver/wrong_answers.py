"""Answers of domeplan that have to be told from right ones."""

from driver.question_cases import simulated
from driver.question_suite import first_difference

PLAN = "140002000c000400020004000202010902020209"
LINE = "plan 4 2 4 2 2 1 9 2 2 2 9"
QUESTIONS = simulated(
    "\n".join([LINE, "read " + PLAN, "nothing", "plan 4 2 4"]).encode())
RIGHT = [PLAN, LINE, "? no such word", "R 2"]


def with_line(place, text):
    return RIGHT[:place] + [text] + RIGHT[place + 1:]


WRONG = [
    ("capitals", with_line(0, PLAN.upper())),
    ("a byte too many", with_line(0, PLAN + "00")),
    ("a byte too few", with_line(0, PLAN[:-2])),
    ("a blank after the digits", with_line(0, PLAN + " ")),
    ("entries reversed", with_line(0, PLAN[:24] + PLAN[32:] + PLAN[24:32])),
    ("a carriage return", with_line(0, PLAN + "\r")),
    ("a refusal where bytes are due", with_line(0, "R 2")),
    ("two blanks in a line", with_line(1, LINE.replace("4 2 2", "4  2 2"))),
    ("zeros in front", with_line(1, LINE.replace("9", "09"))),
    ("a word left out", with_line(1, LINE[5:])),
    ("no reason", with_line(2, "?")),
    ("a blank for a reason", with_line(2, "? ")),
    ("a reason of odd bytes", with_line(2, "? no such word\x07")),
    ("a long reason", with_line(2, "? " + 200 * "no ")),
    ("an answer where a reason is due", with_line(2, "R 2")),
    ("a reason where an answer is due", with_line(3, "? no flow")),
    ("another refusal", with_line(3, "R 3")),
    ("a refusal with a zero in front", with_line(3, "R 02")),
    ("an answer left out", RIGHT[:2] + RIGHT[3:]),
    ("the last answer left out", RIGHT[:3]),
    ("an answer too many", RIGHT + ["R 2"]),
    ("an empty answer", RIGHT[:1] + [""] + RIGHT[1:]),
    ("nothing", []),
]


def missed():
    """(name, what went wrong or None)."""
    right = "".join(line + "\n" for line in RIGHT).encode()
    yield "right ones", first_difference(QUESTIONS, right)
    yield ("no newline at the end",
           not first_difference(QUESTIONS, right[:-1]) and "not told")
    for name, lines in WRONG:
        output = "".join(line + "\n" for line in lines).encode("latin-1")
        yield name, not first_difference(QUESTIONS, output) and "not told"

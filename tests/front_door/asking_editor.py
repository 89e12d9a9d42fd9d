"""domeplan as an editor starts it: a question, its answer, the next one."""

from front_door.command import talk

TURNS = [
    (b"plan 4 2 4 2 2 1 9 2 2 2 9\n",
     b"140002000c000400020004000202010902020209\n"),
    (b"plan 4 2 4 2 2 1 9 3 2 2 9\n", b"R 6\n"),
    (b"read 140002000c000400020004000202010902020209\n",
     b"plan 4 2 4 2 2 1 9 2 2 2 9\n"),
    (b"read\n", b"R 1\n"),
]


def answers_at_once(program):
    """Each answer comes while the input is still open."""
    return talk([program], TURNS)


def tests(programs):
    yield ("domeplan: each answer comes before the next question",
           lambda: answers_at_once(programs["domeplan"]))

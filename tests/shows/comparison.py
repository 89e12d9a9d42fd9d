"""domeshow's answer to a show beside the second simulator's."""

from front_door.command import ROOT, start
from shows.random_shows import numbers
from simulator.shows import lines

PROGRAM = ROOT / "target/bin/domeshow"


def answered(program, found):
    question = " ".join(["show"] + [str(n) for n in found])
    return start([program], input=question.encode()).output.decode()


def compare(seed, program=PROGRAM):
    """Rules 25.1, 25.2, 25.3 and 25.6: what differs, or None; and the refusal
    that came."""
    found = numbers(seed)
    expected = lines(found)
    heard = answered(program, found).splitlines()
    if heard == expected:
        return None, expected[0]
    for at, (a, b) in enumerate(zip(heard + [""] * 300, expected + [""])):
        if a != b:
            return "seed %d, line %d: %r, and %r was expected" % (
                seed, at + 1, a, b), expected[0]
    return "seed %d: more lines than expected" % seed, expected[0]

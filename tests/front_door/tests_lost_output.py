"""tests/run and bench/run whose output is lost: one sentence, status 3."""

from front_door.command import ROOT, redirected, start, trouble

LOST = 3
FLIGHT = ROOT / "flights/sparse"

# A command, a redirection of its output, and words of the sentence.
CASES = [
    (["tests/run", "--simulate", FLIGHT], ">/dev/full", "No space left"),
    (["tests/run", "--simulate", FLIGHT], ">&-", "standard output is closed"),
    (["tests/run", "--help"], ">/dev/full", "No space left"),
    (["bench/run", "--help"], ">/dev/full", "No space left"),
    (["bench/run", "--help"], ">&-", "standard output is closed"),
]


def lost():
    for (name, *words), redirection, says in CASES:
        ended = start(redirected(redirection, str(ROOT / name),
                                 *map(str, words)))
        wrong = trouble(ended, LOST, b"",
                        "%s: output was lost: %s" % (name, says))
        if wrong:
            return "%s %s: %s" % (name, redirection, wrong)
    return None


def tests(_):
    yield "tests/run and bench/run: output that is lost", lost

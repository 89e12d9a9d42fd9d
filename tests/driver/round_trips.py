"""Round trips through domeplan, by its own answers alone: the bytes of a line
are read as that line, and what it reads is written to the same bytes."""

from generator import asked_plans, question_seeds

PLANS = 3000


def difference(asked, got):
    """Text on the first that isn't what was asked for, or None."""
    if len(asked) != len(got):
        return "%d answers to %d questions" % (len(got), len(asked))
    for one, other in zip(asked, got):
        if one != other:
            return "%r became %r" % (one[:80], other[:80])
    return None


def to_read(answers):
    return ["read " + digits for digits in answers]


def numbers_first(suite, seed):
    """plan, then read, then plan: rule 15.3."""
    lines = ["plan " + " ".join(map(str, asked_plans.numbers(plan)))
             for plan in question_seeds.good_plans(seed, PLANS)]
    written = suite.answers(lines)
    back = suite.answers(to_read(written))
    return difference(lines, back) or difference(
        written, suite.answers(back))


def bytes_first(suite, seed):
    """read, then plan, then read."""
    files = [plan.data().hex()
             for plan in question_seeds.good_plans(seed, PLANS)]
    lines = suite.answers(to_read(files))
    again = suite.answers(lines)
    return difference(files, again) or difference(
        lines, suite.answers(to_read(again)))


def tests(suite, seed):
    yield ("round trip: plan, read, plan",
           lambda: numbers_first(suite, seed))
    yield ("round trip: read, plan, read",
           lambda: bytes_first(suite, seed))

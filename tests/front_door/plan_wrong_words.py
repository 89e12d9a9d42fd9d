"""./plan with words that are no question: one sentence, status 2, and
nothing is written."""

from front_door.plan_tree import NOT_DONE, NUMBERS, REFUSED, in_trees

COUNT = "the numbers are F, W, N and then four for each flow, and %s given"

# Words of ./plan, and words of the sentence.
WRONG = [
    ([], "the numbers of a plan are missing"),
    ([""], "the numbers of a plan are missing"),
    (["4"], COUNT % "1 is"),
    (["4", "2"], COUNT % "2 are"),
    (["4", "2", "4", "2"], COUNT % "4 are"),
    (NUMBERS[:-1], COUNT % "10 are"),
    (NUMBERS + ["9", "9"], COUNT % "13 are"),
    (["show.plan"], "'show.plan' is no number"),
    (["4", "2", "four"], "'four' is no number"),
    (["4", "2", "-4"], "'-4' is no number"),
    (["+4", "2", "4"], "'+4' is no number"),
    (["4", "2", "4.0"], "'4.0' is no number"),
    (["4", "2", "0x4"], "'0x4' is no number"),
    (["4", "2", ""], "'' is no number"),
    (["4 2 4"], "'4 2 4' is no number"),
    (["4", "2", "4\n"], "is no number"),
    (["4", "2", "\N{FULLWIDTH DIGIT FOUR}"], "is no number"),
    (["4", "2", "*"], "'*' is no number"),
    (["4", "2", "1000000000"], "'1000000000' has more than nine digits"),
    (["0000000004", "2", "4"], "'0000000004' has more than nine digits"),
    (["-4", "2", "4"], "there is no option '-4'"),
    (["--write"], "there is no option '--write'"),
    (["-"], "there is no option '-'"),
    (["--read"], "--read takes one file, and 0 are named"),
    (["--read", "a", "b"], "--read takes one file, and 2 are named"),
]


def wrong_words(tree):
    for words, says in WRONG:
        ended = tree.start(*words)
        errors = ended.errors.splitlines()
        if (ended.status != NOT_DONE or ended.output
                or not ended.errors.startswith("plan: ")
                or says not in ended.errors or len(errors) > 2):
            return "%r: status %d, %r, %r" % (
                words, ended.status, ended.output, ended.errors)
    return None


def too_many_numbers(tree):
    """A line of more than 4,000 bytes is no question of domeplan's; how many
    flows there are is told all the same."""
    words = ["4", "2", "4"] + ["1", "1", "1", "9"] * 600
    ended = tree.start(*words)
    first = ended.errors.splitlines()[0]
    return ((ended.status, ended.output) != (REFUSED, b"")
            or "refused with 2: n is not 1 to 16; here n is 600" not in first
            ) and "status %d: %s" % (ended.status, first)


def nothing_is_built(tree):
    """Wrong words are said before anything is proved."""
    tree.program.unlink()
    tree.rt("exit 0\n")
    for words in (["4"], ["4", "2", "x"], ["--fast"], ["--read", "nowhere"],
                  ["--week", "1"], ["--week", "1", "2", "x"]):
        tree.start(*words)
    return tree.rt_words() and "rt was started with %r" % tree.rt_words()


def tests(programs):
    return in_trees((wrong_words, too_many_numbers, nothing_is_built),
                    programs)

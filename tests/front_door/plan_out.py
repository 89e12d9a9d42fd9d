"""./plan --out: a file is written whole, and only by a plan that passes."""

import os

from edges.edge_maker import BASE
from front_door.command import redirected, start, trouble
from front_door.plan_read import SIXTEEN
from front_door.plan_tree import DONE, NOT_DONE, NUMBERS, REFUSED, in_trees

TEXT = """\
plan F=4 W=2 N=4
flow main share=2 cells=2 from=1 to=9
flow title share=2 cells=2 from=2 to=9
"""
OVER = "4 2 3  2 2 1 9  2 2 2 9".split()        # refused with 7
STILL = "'live.plan' is not written: what was there is there still"


def left(tree, name="live.plan"):
    """What stands in a file, and what else is in its folder."""
    path = tree.root / name
    beside = [each for each in os.listdir(path.parent) if ".tmp" in each]
    return (path.read_bytes() if path.exists() else None), beside


def wrong_file(tree, data, name="live.plan"):
    found, beside = left(tree, name)
    return (found != data or beside) and "%r, and beside it %s" % (found,
                                                                   beside)


def out(tree, *words, name="live.plan"):
    return tree.start(*words, "--out", name, cwd=tree.root)


# ---- what passes

def a_new_file(tree):
    """Of numbers and of a text; it has the rights of any new file."""
    tree.write("show.txt", TEXT)
    for number, words in enumerate((NUMBERS, ["--make", "show.txt"])):
        name = "made %d" % number
        wrong = trouble(out(tree, *words, name=name), DONE, b"",
                        "plan: '%s' is written" % name) or (
            wrong_file(tree, BASE, name))
        if wrong:
            return "%s: %s" % (words[0], wrong)
    rights = [os.stat(tree.root / name).st_mode for name in
              ("made 0", "show.txt")]
    return rights[0] != rights[1] and "rights %o for %o" % tuple(rights)


def over_a_live_file(tree):
    """A longer one; its rights stay, and a link to it stays a link."""
    path = tree.write("shows/a.plan", SIXTEEN)
    path.chmod(0o640)
    os.symlink("shows/a.plan", tree.root / "live.plan")
    return trouble(out(tree, *NUMBERS), DONE, b"", "'live.plan' is written"
                   ) or wrong_file(tree, BASE, "shows/a.plan") or (
        os.stat(path).st_mode & 0o777 != 0o640 and "other rights"
        or not os.path.islink(tree.root / "live.plan") and "no link any more")


def options_anywhere(tree):
    for words in (["--out", "live.plan", *NUMBERS],
                  [*NUMBERS[:3], "--out", "live.plan", *NUMBERS[3:]]):
        wrong = trouble(tree.start(*words, cwd=tree.root), DONE, b"",
                        "is written") or wrong_file(tree, BASE)
        if wrong:
            return wrong
        (tree.root / "live.plan").unlink()
    return None


def a_text(tree):
    return trouble(out(tree, "--text", "show.plan", name="a.txt"), DONE, b"",
                   "'a.txt' is written") or wrong_file(
        tree, b"plan F=4 W=2 N=4\nflow share=2 cells=2 from=1 to=9  # flow 0\n"
        b"flow share=2 cells=2 from=2 to=9  # flow 1\n", "a.txt")


def standard_output(tree):
    """- stands for it; where it is closed a file is written all the same."""
    return trouble(out(tree, *NUMBERS, name="-"), DONE, BASE) or trouble(
        start(redirected(">&-", tree.command, *NUMBERS, "--out", "live.plan"),
              cwd=tree.root), DONE, b"", "is written") or (
        wrong_file(tree, BASE))


def a_pipe(tree):
    """What is no file is not replaced."""
    os.mkfifo(tree.root / "pipe")
    reader = os.open(tree.root / "pipe", os.O_RDONLY | os.O_NONBLOCK)
    ended = out(tree, *NUMBERS, name="pipe")
    data = os.read(reader, 100)
    os.close(reader)
    return trouble(ended, DONE, b"", "is written") or (
        data != BASE and "%r" % data)


# ---- what is refused, or goes wrong

def refused_leaves_the_live_file(tree):
    tree.write("live.plan", SIXTEEN)
    tree.write("bad.txt", TEXT.replace("N=4", "N=3"))
    for words, name in ((OVER, "the plan"),
                        (["--make", "bad.txt"], "'bad.txt'")):
        ended = out(tree, *words)
        lines = ended.errors.splitlines()
        if ended.status != REFUSED or ended.output or lines[2:] != [
                "plan: " + STILL] or not lines[0].startswith(
                    "plan: %s is refused with 7: " % name):
            return "%s: status %d, %s" % (name, ended.status, ended.errors)
    return wrong_file(tree, SIXTEEN)


def refused_makes_no_file(tree):
    ended = out(tree, *OVER)
    return ended.errors.splitlines()[-1] != (
        "plan: 'live.plan' is not written") and ended.errors or (
        wrong_file(tree, None))


def wrong_words_leave_it(tree):
    """Words that are no plan, a text with a fault, a program that breaks off
    or answers nonsense."""
    tree.write("live.plan", SIXTEEN)
    tree.write("bad.txt", TEXT + "flaw\n")
    for words in (["4", "2", "x"], NUMBERS[:-1], ["--make", "bad.txt"],
                  ["--make", "nowhere"], ["--text", "bad.txt"]):
        ended = out(tree, *words)
        if ended.status != NOT_DONE or wrong_file(tree, SIXTEEN):
            return "%s: status %d, %s" % (words[:3], ended.status,
                                          ended.errors)
    for script in ("echo %s\nkill -9 $$\n" % BASE.hex(), "echo 140\n",
                   "echo R 3\n"):
        tree.instead("cat >/dev/null\n" + script)
        ended = out(tree, *NUMBERS)
        if ended.status != NOT_DONE or wrong_file(tree, SIXTEEN):
            return "%s: status %d, %s" % (script, ended.status, ended.errors)
    return None


def nowhere_to_write(tree):
    """It is said before anything is built."""
    tree.write("show.txt", TEXT)
    tree.program.unlink()
    tree.rt("exit 0\n")
    for words, name, says in (
            (NUMBERS, "no/live.plan", "'no/live.plan' can't be written: there "
             "is no folder "),
            (NUMBERS, "target", "'target' is a directory: --out takes a file"),
            (["--make", "show.txt"], "show.txt",
             "'show.txt' would be written over itself: name another file with "
             "--out")):
        wrong = trouble(out(tree, *words, name=name), NOT_DONE, b"", says)
        if wrong:
            return "%s: %s" % (name, wrong)
    return tree.rt_words() and "rt was started"


def a_full_disk(tree):
    if not os.path.exists("/dev/full"):
        return None
    return trouble(out(tree, *NUMBERS, name="/dev/full"), NOT_DONE, b"",
                   "'/dev/full' can't be written: ")


def where_it_does_not_go(tree):
    for words, says in (
            (["--check", tree.file, "--out", "x"], "--out goes with numbers, "
             "--make and --text: send what --check prints to a file with >"),
            ([*NUMBERS, "--out"], "--out takes the file to write, once"),
            (["--out", "a", "--out", "b", *NUMBERS],
             "--out takes the file to write, once")):
        wrong = trouble(tree.start(*words, cwd=tree.root), NOT_DONE, b"", says)
        if wrong:
            return "%s: %s" % (words[-2:], wrong)
    return None


TESTS = (a_new_file, over_a_live_file, options_anywhere, a_text,
         standard_output, a_pipe, refused_leaves_the_live_file,
         refused_makes_no_file, wrong_words_leave_it, nowhere_to_write,
         a_full_disk, where_it_does_not_go)


def tests(programs):
    for name, test in in_trees(TESTS, programs):
        yield name.replace("plan:", "plan --out:"), test

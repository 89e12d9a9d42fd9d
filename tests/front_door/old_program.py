"""./play and ./plan where the program is missing or older than its
sources."""

import os
import shutil

from front_door.command import trouble
from front_door.plan_tree import PlanTree
from front_door.play_tree import PlayTree
from front_door.tree import named

NOTHING_DONE = 2                # exit status of either script


def asked_once(tree):
    """What is wrong with how rt was started, or None."""
    if tree.rt_words() != tree.asked():
        return "rt was started with %r" % tree.rt_words()
    return None


def nothing_done(tree, says):
    """What is wrong with an end that says these words last, or None."""
    ended = tree.start(*tree.good)
    if ended.status != NOTHING_DONE or ended.output:
        return "status %d, %r" % (ended.status, ended.output)
    return says not in ended.errors.splitlines()[-1] and ended.errors


def missing_without_rt(tree):
    tree.program.unlink()
    tree.only_tools()
    return trouble(tree.start(*tree.good), NOTHING_DONE, b"",
                   "%s is missing, and rt, which proves and builds it"
                   % tree.crate)


def missing_and_built(tree):
    os.rename(tree.program, tree.root / "built")
    tree.rt(tree.leaves("built"))
    ended = tree.start(*tree.good)
    return asked_once(tree) or trouble(
        ended, 0, tree.output, tree.crate + " is missing: it is proved")


def missing_and_not_built(tree):
    tree.program.unlink()
    tree.rt("exit 1\n")
    return nothing_done(tree, "rt run in crates/%s failed" % tree.crate)


def missing_and_nothing_left(tree):
    tree.program.unlink()
    tree.rt("exit 0\n")
    return nothing_done(tree, "left no " + tree.left)


def old_and_built(tree):
    """It is said, rt is asked once, and the next start is quiet."""
    shutil.copy(tree.program, tree.root / "built")
    os.utime(tree.program, (1000, 1000))
    os.utime(tree.source, (2000, 2000))
    tree.rt(tree.leaves("built"))
    return (trouble(tree.start(*tree.good), 0, tree.output,
                    tree.crate + " is older than its sources: it is proved")
            or trouble(tree.start(*tree.good), 0, tree.output)
            or asked_once(tree))


def another_crate_is_newer(tree):
    """rt is asked for nothing where no crate is newer that the program stands
    on."""
    other = tree.write("crates/extras/src/lib.rt" if tree.crate == "domelink"
                       else "crates/link/src/lib.rt", "// a source\n")
    os.utime(tree.program, (2000, 2000))
    os.utime(other, (3000, 3000))
    tree.rt("exit 0\n")
    return trouble(tree.start(*tree.good), 0, tree.output) or (
        tree.rt_words() and "rt was started with " + tree.rt_words())


def old_and_not_built(tree):
    os.utime(tree.program, (1000, 1000))
    os.utime(tree.source, (2000, 2000))
    tree.rt("echo 'not proved'\nexit 1\n")
    return nothing_done(tree, "older than its sources, and rt run in crates/%s "
                        "failed" % tree.crate)


def left_by_rt_ci(tree):
    """What rt has proved and left is taken without a word, if it is of the
    sources as they stand."""
    for built in ("missing", "old"):
        shutil.copy(tree.program, tree.root / tree.left)
        os.utime(tree.source, (2000, 2000))
        if built == "missing":
            tree.program.unlink()
        else:
            tree.instead("exit 9\n")
            os.utime(tree.program, (1000, 1000))
        tree.rt("exit 1\n")
        wrong = trouble(tree.start(*tree.good), 0, tree.output) or (
            tree.rt_words() and "rt was started with " + tree.rt_words())
        if wrong:
            return "%s: %s" % (built, wrong)
        shutil.rmtree(tree.root / "bin")
    return None


def old_one_left(tree):
    """What rt left of older sources is not taken."""
    shutil.copy(tree.program, tree.root / tree.left)
    os.utime(tree.root / tree.left, (1000, 1000))
    os.utime(tree.source, (2000, 2000))
    tree.program.unlink()
    tree.rt("exit 1\n")
    return nothing_done(tree, "rt run in crates/%s failed" % tree.crate) or (
        asked_once(tree))


def no_place_for_the_program(tree):
    """A file is in the way of the folder."""
    tree.program.rename(tree.root / "built")
    shutil.rmtree(tree.program.parent)
    tree.write("target/bin", "in the way")
    tree.rt(tree.leaves("built"))
    return nothing_done(tree, "is built, and target/bin/%s can't be written"
                        % tree.crate)


TESTS = (missing_without_rt, missing_and_built, missing_and_not_built,
         missing_and_nothing_left, old_and_built, another_crate_is_newer,
         old_and_not_built, left_by_rt_ci, old_one_left,
         no_place_for_the_program)


def tests(programs):
    for kind in (PlayTree, PlanTree):
        yield from named(kind, TESTS, programs)

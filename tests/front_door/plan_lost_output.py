"""./plan where standard output takes nothing, or domeplan gives no answer."""

import os
import pty
import signal
import subprocess
import time

from edges.edge_maker import BASE
from front_door.command import LIMIT, redirected, start, trouble
from front_door.plan_tree import NOT_DONE, NUMBERS, in_trees


def all_ways(tree):
    """Words that make a plan file, that print one, and that print a week."""
    return NUMBERS, ["--read", tree.file], ["--week", "1200", "1275", "7"]


def all_output(tree):
    """The same, and words of all other ways that write to standard output."""
    return [*all_ways(tree), *([option, tree.file] for option in (
        "--check", "--fits", "--text")), ["--json", "--check", tree.file],
        *map(str.split, ("--mesh 2 0 9 1", "--at 0 0 5 7",
                         "--extras 4 8 3 40", "--count 4 2"))]


def each(tree, ends, says, ways=all_ways):
    """What is wrong where each has to end with status 2, or None."""
    for words in ways(tree):
        wrong = trouble(ends(words), NOT_DONE, says=says)
        if wrong:
            return "%s: %s" % (words[0], wrong)
    return None


# ---- standard output

def closed_output(tree):
    return each(tree, lambda words: start(
        redirected(">&-", tree.command, *words)), "standard output is closed",
        all_output)


def full_disk(tree):
    if not os.path.exists("/dev/full"):
        return None
    return each(tree, lambda words: start(
        redirected(">/dev/full", tree.command, *words)), "output was lost",
        all_output)


def reader_has_gone(tree):
    def ends(words):
        reader, writer = os.pipe()
        os.close(reader)
        ended = tree.start(*words, stdout=writer)
        os.close(writer)
        return ended
    return each(tree, ends, "output was lost")


def terminal(tree):
    """A plan file is not written to a terminal, where it would be lost."""
    shown, screen = pty.openpty()
    ended = tree.start(*NUMBERS, stdout=screen)
    os.set_blocking(shown, False)
    try:
        seen = os.read(shown, 100)
    except BlockingIOError:
        seen = b""
    os.close(screen)
    os.close(shown)
    return trouble(ended, NOT_DONE, says="standard output is a terminal") or (
        seen and "%r is written" % seen)


# ---- domeplan

def breaks_off(tree):
    """Though its answer is there."""
    tree.instead('echo %s\nkill -9 $$\n' % BASE.hex())
    for words in all_ways(tree):
        ended = tree.start(*words)
        last = ended.errors.splitlines()[-1]
        if (ended.status, ended.output, last) != (
                NOT_DONE, b"", "plan: domeplan broke off"):
            return "status %d, %r, %s" % (
                ended.status, ended.output, ended.errors)
    return None


def answers_nonsense(tree):
    """Nothing, half a byte, capitals, another word, a refusal that is none,
    two lines: nothing of it is written."""
    for answer in ("", "140", "14 00", "14OO", "nothing", "R", "R x", "plan",
                   "plan 4 2 x", "plan 4 2", "R 1\\n2"):
        tree.instead("cat >/dev/null\nprintf '%s\\n'\n" % answer)
        for words in all_ways(tree):
            ended = tree.start(*words)
            if (ended.status != NOT_DONE or ended.output
                    or "domeplan answered '" not in ended.errors):
                return "%r: status %d, %r, %s" % (
                    answer, ended.status, ended.output, ended.errors)
    return None


def takes_no_such_question(tree):
    tree.instead('cat >/dev/null\necho "? because of this"\n')
    return each(tree, lambda words: tree.start(*words),
                "domeplan doesn't take this: because of this")


def can_not_be_started(tree):
    tree.program.write_text("no program\n")
    return each(tree, lambda words: tree.start(*words),
                "domeplan can't be started: ")


def is_broken_off(tree):
    """By a key, while domeplan takes its time: one line."""
    tree.instead("echo >started\nexec sleep %d\n" % LIMIT)
    process = subprocess.Popen(
        [tree.command, *NUMBERS], cwd=tree.root, stdin=subprocess.DEVNULL,
        stdout=subprocess.PIPE, stderr=subprocess.PIPE,
        start_new_session=True)
    for _ in range(10 * LIMIT):
        if (tree.root / "started").exists():
            break
        time.sleep(0.1)
    os.killpg(process.pid, signal.SIGINT)
    output, errors = process.communicate(timeout=LIMIT)
    return (process.returncode, output, errors) != (
        NOT_DONE, b"", b"plan: broken off\n") and "status %d, %r, %r" % (
            process.returncode, output, errors)


TESTS = (closed_output, full_disk, reader_has_gone, terminal, breaks_off,
         answers_nonsense, takes_no_such_question, can_not_be_started,
         is_broken_off)


def tests(programs):
    return in_trees(TESTS, programs)

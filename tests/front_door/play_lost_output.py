"""./play where standard output takes no more, or the program breaks off."""

import os
import subprocess

import call_bytes
from edges.edge_maker import BASE
from front_door.command import (
    LIMIT, into_full_pipe, redirected, start, trouble)
from front_door.play_tree import NOT_WHOLE, in_trees


def closed_output(tree):
    return trouble(start(redirected(">&-", tree.command)), NOT_WHOLE, b"",
                   "standard output is closed")


def page_needs_no_output(tree):
    """A page goes to its file, whatever standard output is."""
    page = os.path.join(os.path.dirname(tree.calls), "page.html")
    wrong = trouble(start(redirected(">&-", tree.command, "--page", page,
                                     tree.calls)), 0, b"",
                    "page.html' is written")
    return wrong or (None if os.path.exists(page) else "there is no page")


def full_disk(tree):
    if not os.path.exists("/dev/full"):
        return None
    return trouble(start(redirected(">/dev/full", tree.command)), NOT_WHOLE,
                   b"", "output was lost")


def reader_leaves(tree):
    """The reader takes one line and goes; a pipe doesn't hold the others."""
    calls = tree.write("many", BASE + 100000 * call_bytes.TICK)
    process = subprocess.Popen([tree.command, calls], stdout=subprocess.PIPE,
                               stderr=subprocess.PIPE, bufsize=0)
    process.stdout.readline()
    process.stdout.close()
    errors = process.stderr.read().decode()
    process.stderr.close()
    if process.wait(timeout=LIMIT) != NOT_WHOLE:
        return "status %d" % process.returncode
    return None if "output was lost" in errors else repr(errors)


def reader_is_slow(tree):
    """The pipe is full and doesn't wait."""
    calls = tree.write("many", BASE + 5000 * call_bytes.TICK)
    ended = into_full_pipe([tree.command, calls])
    if not (b"P 0\n" + 5000 * b"T -\n").startswith(ended.output):
        return "ends in %r" % ended.output[-20:]
    return trouble(ended, NOT_WHOLE, says="output was lost")


def program_breaks_off(tree):
    tree.instead('echo "P 0"\nkill -9 $$\n')
    ended = tree.start(tree.calls)
    if ended.status != NOT_WHOLE or ended.output != b"P 0\n":
        return "status %d, %r" % (ended.status, ended.output)
    return "play: domelink broke off" not in ended.errors and ended.errors


def program_says_so(tree):
    """A line of domelink on standard error is passed on, and no other."""
    tree.instead('echo "P 0"\necho "domelink: output was lost" >&2\n')
    return trouble(tree.start(tree.calls), NOT_WHOLE, b"P 0\n",
                   "domelink: output was lost")


TESTS = (closed_output, page_needs_no_output, full_disk, reader_leaves, reader_is_slow,
         program_breaks_off, program_says_so)


def tests(programs):
    return in_trees(TESTS, programs)

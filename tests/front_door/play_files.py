"""./play on files: what it plays, what is refused, and what is no file."""

import os

import call_bytes
from edges import refusals_page
from edges.edge_maker import BASE
from front_door.command import ROOT, redirected, start, talk, trouble
from front_door.play_tree import (
    ACCEPTED, LISTING, NOT_PLAYED, REFUSED, in_trees)
from front_door.remedies import what_to_do

AS_A_PLAN = what_to_do(1) + "; a file of calls begins with the bytes of a plan"

# ---- files that can be played

def dense_flight(tree):
    with open(tree.root / "flights/dense", "rb") as source:
        listing = start([tree.program], stdin=source).output
    return trouble(tree.start("--dense", cwd="/"), output=listing)


def a_file(tree):
    return trouble(tree.start(tree.calls), output=LISTING)


def odd_names(tree):
    """Blanks, a quote, and a minus in front."""
    for name in ("a 'b' c", "-x"):
        tree.write(name, ACCEPTED)
        wrong = trouble(tree.start("--", name, cwd=tree.root), output=LISTING)
        if wrong:
            return wrong
    return None


def standard_input(tree):
    return trouble(tree.start("-", input=ACCEPTED), output=LISTING)


def symlink_to_play(tree):
    """A symlink to a symlink, one of them relative, from another folder."""
    folder = tree.root.parent
    os.symlink("tree/play", folder / "first")
    os.symlink(folder / "first", folder / "second")
    return trouble(start([folder / "second", tree.calls], cwd="/"),
                   output=LISTING)


def closed_input_not_needed(tree):
    words = redirected("<&-", tree.command, tree.calls)
    return trouble(start(words), output=LISTING)


def streamed(tree):
    """Each line comes while the input is still open."""
    return talk([tree.command, "-"], [
        (BASE, b"P 0\n"), *3 * [(call_bytes.TICK, b"T -\n")]])


# ---- plans that are refused

def refused_plans(tree):
    """Status 1, the words of docs/REFUSALS.md, and what to do."""
    when = refusals_page.sentences()
    for number, data, last in refusals_page.examples():
        if last.startswith("P"):
            wrong = trouble(tree.start("-", input=data), REFUSED,
                            last.encode() + b"\n",
                            "standard input is refused with %d: %s"
                            % (number, when[number]), what_to_do(number))
            if wrong:
                return "refusal %d: %s" % (number, wrong)
    return None


def text_file(tree):
    return trouble(tree.start(ROOT / "README.md"), REFUSED, b"P 1\n",
                   "README.md' is refused with 1: the plan has fewer than",
                   AS_A_PLAN)


def play_itself(tree):
    """A symlink to play as the file: it is text too."""
    os.symlink(tree.command, tree.root / "itself")
    return trouble(tree.start(tree.root / "itself"), REFUSED, b"P 1\n",
                   "itself' is refused with 1", AS_A_PLAN)


def empty_file(tree):
    return trouble(tree.start("-", input=b""), REFUSED, b"P 1\n",
                   "standard input is refused with 1", AS_A_PLAN)


# ---- what can't be played

def directory(tree):
    return trouble(tree.start(tree.root), NOT_PLAYED, b"", "is a directory")


def missing_file(tree):
    return trouble(tree.start("nowhere"), NOT_PLAYED, b"",
                   "there is no file 'nowhere'")


def extra_arguments(tree):
    return trouble(tree.start(tree.calls, tree.calls), NOT_PLAYED, b"",
                   "one file is played at a time")


def unknown_option(tree):
    return trouble(tree.start("--fast"), NOT_PLAYED, b"",
                   "there is no option '--fast'")


def closed_input(tree):
    return trouble(start(redirected("<&-", tree.command, "-")), NOT_PLAYED,
                   b"", "standard input is closed")


def version(tree):
    """Also where there is neither git nor rt, nor the file VERSION."""
    tree.only_tools()
    return trouble(tree.start("--version"), output=(
        b"Nazgolv version unknown, commit unknown\nkit unknown\n"
        b"program target/bin/domelink is built\n"))


def help_page(tree):
    ended = tree.start("--help")
    return trouble(ended) or (
        b"Exit status" not in ended.output and "no word on the status")


TESTS = (
    dense_flight, a_file, odd_names, standard_input, symlink_to_play,
    closed_input_not_needed, streamed,
    refused_plans, text_file, play_itself, empty_file,
    directory, missing_file, extra_arguments, unknown_option, closed_input,
    version, help_page,
)


def tests(programs):
    return in_trees(TESTS, programs)

"""The C player as its user meets it: one command builds it, and it says how
it ends."""

import os
import tempfile
from functools import partial
from pathlib import Path

from edges.from_the_paper import EDGES
from front_door.c_tree import PROVES_NOTHING, CTree
from front_door.command import redirected, start, trouble

NOT_WHOLE = 1
LISTING = EDGES[0]              # rule 13.6's


def plays_listing(player):
    lines = "".join(line + "\n" for line in LISTING.lines).encode()
    return trouble(start([player], input=LISTING.data), output=lines)


# ---- player/build, in a tree where a script stands in for rt

def built(installed):
    return installed.wrong or plays_listing(
        installed.tree.root / "target/c/player")


def not_proved():
    with tempfile.TemporaryDirectory() as folder:
        tree = CTree(Path(folder) / "tree", PROVES_NOTHING)
        return (trouble(tree.build(), status=1)
                or (tree.root / "target/c/player").exists() and "it is built")


# ---- how it ends

def an_argument(player):
    return trouble(start([player, "calls"]), 2, b"", "there are no arguments")


def no_input(player):
    return trouble(start([player]), output=b"P 1\n")


def unreadable_input(player):
    """It is no plan of the wrong length: there is no line."""
    return trouble(start(redirected("<" + os.sep, player)), NOT_WHOLE, b"",
                   "the listing is not whole")


def full_disk(player):
    if not os.path.exists("/dev/full"):
        return None
    return trouble(start(redirected(">/dev/full", player),
                         input=LISTING.data), NOT_WHOLE, b"",
                   "the listing is not whole")


def build_tests(installed):
    yield "C: player/build", partial(built, installed)
    yield "C: player/build where the proof fails", not_proved


def tests(player):
    for test in (an_argument, no_input, unreadable_input, full_disk):
        yield ("C: the player, " + test.__name__.replace("_", " "),
               partial(test, player))

"""A tree of its own for each test of ./play."""

import call_bytes
from edges.edge_maker import BASE
from front_door.command import ROOT
from front_door.tree import Tree, named

PLAYED, REFUSED, NOT_PLAYED, NOT_WHOLE = range(4)      # exit statuses of play
ACCEPTED = BASE + call_bytes.TICK
LISTING = b"P 0\nT -\n"
SHOW = tuple("tools/show/" + path.name              # what says and draws plays
             for path in sorted((ROOT / "tools/show").iterdir())
             if path.is_file())


class PlayTree(Tree):
    script, crate = "play", "domelink"
    needed = ("flights/dense", "flights/listing", "target/bin/domelink",
              "target/bin/dometrace", *SHOW)

    def __init__(self, folder, program):
        super().__init__(folder, program)
        self.calls = self.write("calls", ACCEPTED)
        self.good = [self.calls]        # words of a start that goes well
        self.output = LISTING           # what it then writes


class TracedTree(PlayTree):
    """Of what says and draws plays."""

    crate = "dometrace"


def in_trees(tests, programs):
    return named(PlayTree, tests, programs)


def in_traced_trees(tests):
    return named(TracedTree, tests, {"dometrace": ROOT
                                     / "target/bin/dometrace"})

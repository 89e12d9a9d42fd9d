"""A tree of its own for each test of ./plan."""

import os
import sys

from edges.edge_maker import BASE
from front_door.command import ROOT
from front_door.tree import Tree, named

DONE, REFUSED, NOT_DONE = range(3)              # exit statuses of plan
NUMBERS = "4 2 4  2 2 1 9  2 2 2 9".split()     # BASE, asked for


NEEDED = ("tools/build", "tools/plan_desk.py", "tools/show/refusals.py",
          "tools/check/__init__.py", "tools/check/words.py",
          "tools/dome/__init__.py", "tools/dome/show_file.py", *(
              "tools/plan/" + path.name
              for path in sorted((ROOT / "tools/plan").glob("*.py"))))


class PlanTree(Tree):
    script, crate = "plan", "domeplan"
    needed = NEEDED

    def __init__(self, folder, program):
        super().__init__(folder, program)
        self.file = self.write("show.plan", BASE)
        self.good = NUMBERS             # words of a start that goes well
        self.output = BASE              # what it then writes

    def only_tools(self):
        """python3 is one of them, but not to --version and --help."""
        super().only_tools()
        os.symlink(sys.executable, self.root / "bin/python3")


def in_trees(tests, programs):
    return named(PlanTree, tests, programs)

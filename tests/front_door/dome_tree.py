"""A tree of its own for each test of ./dome: the script, what it is made of,
and its four programs."""

from front_door.command import ROOT
from front_door.tree import Tree, named

DONE, REFUSED, NOT_DONE = range(3)              # exit statuses of dome
DOMESHOW = ROOT / "target/bin/domeshow"
DOMETRACE = ROOT / "target/bin/dometrace"
SMALL = """\
dome F=4 W=2 N=40       # a small one
stream main from=0 to=9 share=1
stream comet from=1 to=9 share=2 cells=6 burst=1
"""


class DomeTree(Tree):
    script, crate = "dome", "domeshow"
    needed = tuple(
        "tools/dome/" + path.name
        for path in sorted((ROOT / "tools/dome").glob("*.*"))
    ) + ("tools/show/refusals.py", "tools/show/ends.py")

    def __init__(self, folder, programs):
        super().__init__(folder, DOMESHOW)
        for name in ("domeplan", "domelink"):
            self.copy(programs[name], "target/bin/" + name)
        self.copy(DOMETRACE, "target/bin/dometrace")
        self.file = self.write("a.dome", SMALL)

    def check(self, text):
        """How ./dome check ends on a show of this text, or of these bytes."""
        data = text if isinstance(text, bytes) else text.encode()
        return self.start("check", "-", input=data)


def rows(ended):
    """Each stream's columns, of what play printed."""
    table = ended.output.decode().split("\n\n")[1]
    return {line.split()[0]: line.split()
            for line in table.splitlines()[1:]}


def in_trees(tests, programs):
    return named(DomeTree, tests, {DomeTree.crate: programs})

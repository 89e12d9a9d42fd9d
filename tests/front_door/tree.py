"""A tree of its own for each test of a script of the front door: a copy of
the script and of what it needs."""

import os
import shutil
import tempfile
from pathlib import Path

from front_door.command import ROOT, start

NEEDED = ("tools/front_door.sh", "docs/REFUSALS.md", "crates.txt")
TOOLS = ("cat", "cp", "dirname", "find", "head", "mkdir", "mv", "od",
         "readlink", "rm", "sed", "sh", "sort", "tail", "touch", "tr")


class Tree:
    """A folder with a script, its program and one source, which is older."""

    script = crate = None       # names: the script's, and its program's
    needed = ()                 # files that this script needs besides

    def __init__(self, folder, program):
        self.root = Path(folder) / "tree"
        for name in (self.script, *NEEDED, *self.needed):
            self.copy(ROOT / name, name)
        self.command = self.root / self.script
        self.program = self.copy(program, "target/bin/" + self.crate)
        self.source = self.write("crates/plan/src/lib.rt", "// a source\n")
        self.left = "crates/%s/out/%s" % (self.crate, self.crate)
        (self.root / self.left).parent.mkdir(parents=True)
        for path in (self.source, self.root / "crates.txt"):
            os.utime(path, (1, 1))
        self.path = os.environ.get("PATH", os.defpath)

    def write(self, name, content):
        path = self.root / name
        path.parent.mkdir(parents=True, exist_ok=True)
        if isinstance(content, bytes):
            path.write_bytes(content)
        else:
            path.write_text(content)
        return path

    def copy(self, source, name):
        path = self.write(name, b"")
        shutil.copy(source, path)
        return path

    def instead(self, script):
        """Puts a script of sh in the place of the program."""
        self.program.write_text("#!/bin/sh\n" + script)

    def only_tools(self):
        """Leaves nothing on the path but the tools that the scripts need."""
        folder = self.root / "bin"
        folder.mkdir()
        for tool in TOOLS:
            os.symlink(shutil.which(tool), folder / tool)
        self.path = str(folder)

    def rt(self, script):
        """Puts an rt on the path that writes down its words and its folder,
        then does what the script says, at the tree's root."""
        self.only_tools()
        self.write_rt(script)

    def write_rt(self, script):
        root = self.root.resolve()
        path = self.write("bin/rt", '#!/bin/sh\nfolder=${PWD#"%s"/}\ncd "%s"\n'
                          'echo "$@ in $folder" >>rt.words\n' % (root, root)
                          + script)
        path.chmod(0o755)

    def leaves(self, built):
        """The lines of an rt that leaves a program, which stands at a path."""
        return "mv %s %s\n" % (built, self.left)

    def asked(self):
        """What rt is asked for where the program is to be built."""
        return "run in crates/%s\n" % self.crate

    def rt_words(self):
        path = self.root / "rt.words"
        return path.read_text() if path.exists() else ""

    def start(self, *words, **options):
        return start([self.command, *words],
                     env=dict(os.environ, PATH=self.path), **options)


def in_a_tree(kind, test, program):
    with tempfile.TemporaryDirectory() as folder:
        return test(kind(folder, program))


def named(kind, tests, programs):
    """The name of each test, and how it is made in a tree of its own."""
    for test in tests:
        name = "./%s: %s" % (kind.script, test.__name__.replace("_", " "))
        yield name, lambda test=test: in_a_tree(
            kind, test, programs[kind.crate])

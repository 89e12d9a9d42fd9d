"""A tree in which player/build is run with a script in the place of rt, which
hands out a library that is proved already; and the prefix that it fills."""

import os
import shutil
from pathlib import Path

from front_door.command import ROOT, start, trouble

HANDS_OUT = """\
[ "$*" = lib ] && [ "${PWD##*/}" = nazgolv ] || exit 2
mkdir -p out
cp "%s" out/libnazgolv.a
"""
PROVES_NOTHING = "exit 1\n"


class CTree:
    def __init__(self, root, script):
        self.root = Path(root)
        for part in ("include", "player", "docs/man"):
            shutil.copytree(ROOT / part, self.root / part)
        (self.root / "tools").mkdir()
        for name in ("tools/build", "tools/front_door.sh", "crates.txt"):
            shutil.copy(ROOT / name, self.root / name)
        (self.root / "crates/nazgolv").mkdir(parents=True)
        rt = self.root / "bin/rt"
        rt.parent.mkdir()
        rt.write_text("#!/bin/sh\n" + script)
        rt.chmod(0o755)
        self.path = os.pathsep.join([str(rt.parent), os.environ["PATH"]])

    def build(self, *words, **others):
        """Runs player/build, with other variables of the environment."""
        return start([self.root / "player/build", *words], cwd=os.sep,
                     env=dict(os.environ, PATH=self.path, **others))


class Installed:
    """The library where player/build --install put it."""

    def __init__(self, folder, library):
        self.tree = CTree(Path(folder) / "tree", HANDS_OUT % library)
        self.prefix = Path(folder) / "prefix"
        self.wrong = trouble(self.tree.build("--install", self.prefix))
        self.archive = self.prefix / "lib/libnazgolv.a"
        self.shared = self.prefix / "lib/libnazgolv.so.4"

    @property
    def library_path(self):
        """The environment in which a program finds the shared library."""
        return dict(os.environ, LD_LIBRARY_PATH=str(self.prefix / "lib"))

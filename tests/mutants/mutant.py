"""A mistake: one text of a file in the place of another."""

import shutil
from pathlib import Path

ROOT = Path(__file__).resolve().parents[2]


class Mutant:
    def __init__(self, name, path, old, new, told):
        self.name = name
        self.path = path        # from the repository's root
        self.old = old          # stands there once
        self.new = new
        self.told = told        # the name of a test that tells it

    def text(self):
        """The file with the mistake."""
        text = (ROOT / self.path).read_text(encoding="utf-8")
        if text.count(self.old) != 1:
            raise ValueError("%s: %r stands %d times in %s" % (
                self.name, self.old, text.count(self.old), self.path))
        return text.replace(self.old, self.new)

    def copied(self, folder, target):
        """A copy of a folder of the tree, with the mistake in it."""
        shutil.copytree(ROOT / folder, target,
                        ignore=shutil.ignore_patterns("__pycache__"))
        place = Path(target) / Path(self.path).relative_to(folder)
        place.write_text(self.text(), encoding="utf-8")


def table(path, rows):
    """Mutants of one file."""
    return [Mutant(name, path, old, new, told)
            for name, old, new, told in rows]

"""Pages that have to stay short, and the map of the tests."""

from front_door.command import ROOT
from front_door.pages import inline_code, page, table

KILOBYTES = {"docs/PERFORMANCE.md": 5, "tests/README.md": 8}


def short(name):
    size = len(page(name).encode())
    return size > 1024 * KILOBYTES[name] and "%d bytes" % size


def folders():
    """tests/README.md names each folder of the tests, and no other."""
    named = sorted(name for row in table(page("tests/README.md"),
                                         "Folder or file")
                   for name in inline_code(row[0]))
    there = sorted([path.name + "/" for path in (ROOT / "tests").iterdir()
                    if path.is_dir() and path.name != "__pycache__"]
                   + [path.name for path in (ROOT / "tests").glob("*.py")])
    return named != there and "%s for %s" % (named, there)


def tests(_):
    for name, most in KILOBYTES.items():
        yield ("docs: %s, at most %d KB" % (name, most),
               lambda name=name: short(name))
    yield "docs: tests/README.md, what is where", folders

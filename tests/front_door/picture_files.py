"""Call files with listings worked out by hand, and pictures of them."""

import sys
import tempfile
from pathlib import Path

from edges import from_the_paper
from edges.edge_maker import BASE, TICK, lend
from call_bytes import plan, request
from front_door.command import ROOT, start
from front_door.show_tools import followed, page
from simulator.listing import simulate
from simulator.records import ALLCALLS, DOMELINK

import colours          # noqa: F401 (for tests; show_tools has its folder)

SHOW = ROOT / "tools" / "show"
COMMAND = [sys.executable, "-B", SHOW / "pictures.py"]
PROGRAM = ROOT / "target/bin/dometrace"


class OtherListing(Exception):
    """A listing by hand is not the file's."""


class Played:
    """A call file and its listing, which the second simulator has to give."""

    def __init__(self, data, lines, options=()):
        self.data = data
        self.options = list(options)
        given = list(simulate(data, ALLCALLS if self.options else DOMELINK))
        if given != list(lines):
            raise OtherListing("%s for %s" % (given[:20], lines))


# Rule 13.6's listing: flow 0 books 1, 2 and 4, flow 1 books 3, and after the
# tick position 1 is current.
LISTING = Played(from_the_paper.EDGES[0].data, from_the_paper.EDGES[0].lines)

# Slot 0 is lent to flow 0, slot 1 goes by idle, and slot 2 is flow 1's.
LENT = Played(BASE + lend(1) + TICK + request(9, 1, 0, 1) + TICK,
              ["P 0", "L 0", "T -", "G 2", "T 1"], ["--allcalls"])

# F = 1, W = 2 and one flow, share 1 and 4 cells.  It books slot 1, and the
# tick is a frame change: position 1 is the head frame, position 0 the newest.
ONE_SLOT = Played(plan(1, 2, 4, [(1, 4, 1, 9)]) + request(9, 0) + TICK,
                  ["P 0", "G 1", "T 0"])


class Drawn:
    """How pictures.py ended, and the file that it wrote, or None."""

    def __init__(self, ended, path):
        self.ended = ended
        self.text = path.read_text() if path.exists() else None


def drawn(played, *words, after=(), name="calls", **options):
    """Starts pictures.py on a file; OUT among the words is a file to write,
    and `after` what stands after the file."""
    with tempfile.TemporaryDirectory() as folder:
        path = Path(folder)
        (path / name).write_bytes(played.data)
        out = path / "out"
        with open(path / name, "rb") as calls:
            ended = start([*COMMAND, *(out if word == "OUT" else word
                                       for word in words), *played.options,
                           PROGRAM, path / name, *after], stdin=calls,
                          **options)
        return Drawn(ended, out)


def flight_of(played, first=0, last=None):
    """What the page of a file has for its script."""
    return page.flight_in_html(followed(
        lambda plan: page.Flight(plan, first, last), played.data,
        bool(played.options)), "calls")

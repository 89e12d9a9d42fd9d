"""Call files with their right listings, to be played through programs: the
edges, the inputs of docs/REFUSALS.md, files in pieces, and generated files.

Each function yields names, and with each name how the case is made.  Those
with lends, resets or bursts are for programs that read allcalls' records, the
others for all.
"""

from demand3.check import check
from driver.formats import ALLCALLS, DOMELINK, has_other_calls
from edges import refusals_page
from edges.all_edges import ALLCALLS_EDGES, EDGES
from generator.seeds import ANY, BURSTS, LENDS
from simulator.image import image_of
from simulator.listing import steps

PIECES = (1, 2, 3, 4, 7, 64)    # bytes at a time
IN_PIECES = ("the listing of rule 13.6", "a last record of 3 bytes",
             "plan: 19 bytes that say 20")
OTHERS_IN_PIECES = ("lend: 17 at a lent and at a booked slot",
                    "lend: a last record of 4 bytes",
                    "reset: the mark of a booked slot",
                    "reset: a last record of 4 bytes",
                    "burst: on after a refusal", "burst: all but a byte",
                    "number: each flow's own in a burst")
FEW = 4000                      # bytes of a file that is fed in pieces


class Right:
    """A right listing of a call file, and the image that it ends with, b""
    where there is none."""

    def __init__(self, data, simulated, form):
        self.lines, self.image = simulated
        self.listing = "".join(line + "\n" for line in self.lines).encode()
        self.verdict = check(data, self.lines, form.checked)    # on demand 3


def simulated(data, form):
    """The simulator's listing, and its image at the end."""
    lines, links = zip(*steps(data, form.kinds))
    return list(lines), image_of(links[-1]) if links[-1] else b""


class Case:
    def __init__(self, data, simulated, size=None, trouble=None,
                 form=DOMELINK):
        self.data = data
        self.size = size            # bytes of a piece, or None for whole
        self.trouble = trouble      # what is wrong before anything is played
        self.own = Right(data, simulated, form)
        self.known = {form: self.own}

    def right(self, form):
        """The right listing.  A file with none of allcalls' own calls has one
        listing, whatever the program."""
        if form not in self.known:
            self.known[form] = (
                Right(self.data, simulated(self.data, form), form)
                if has_other_calls(self.data) else self.own)
        return self.known[form]


# ---- files for every program

def from_edge(edge, size=None, form=DOMELINK):
    """The simulator has to give the hand-made listing too."""
    lines, image = simulated(edge.data, form)
    differs = lines != edge.lines and "the simulator gives %s" % lines[-9:]
    return Case(edge.data, (edge.lines, image), size, differs, form)


def edges():
    for edge in EDGES:
        yield "edge: " + edge.name, lambda edge=edge: from_edge(edge)


def from_page(data, last, form):
    lines, image = simulated(data, form)
    differs = lines[-1] != last and "ends in " + lines[-1]
    return Case(data, (lines, image), None, differs, form)


def page(form=DOMELINK):
    """Each input of docs/REFUSALS.md ends in the line beside it."""
    kind, program = ((" by allcalls", "allcalls") if form is ALLCALLS
                     else ("", None))
    for number, data, last in refusals_page.examples(program):
        yield ("docs: refusal %d%s" % (number, kind),
               lambda data=data, last=last: from_page(data, last, form))


def edges_in_pieces(names, edges, form):
    named = {edge.name: edge for edge in edges}
    for size in PIECES:
        for name in names:
            yield ("edge: %s in pieces of %d" % (name, size),
                   lambda edge=named[name], size=size:
                   from_edge(edge, size, form))


# ---- generated files

def form_of(sort):
    """How its records are read."""
    return ALLCALLS if sort.other_calls else DOMELINK


def from_seed(sort, seed, size=None):
    data, form = sort.generate(seed), form_of(sort)
    return Case(data, simulated(data, form), size, form=form)


def named(sort, seed):
    return "%sseed %d" % (sort.name and sort.name + ", ", seed)


def generated(sort, count, seed):
    for number in range(seed, seed + count):
        yield ("%s (%s)" % (named(sort, number), sort.kind_of(number)),
               lambda number=number: from_seed(sort, number))


def cut_up(sort, seed):
    """Small files of a sort in pieces."""
    for size, number in zip(PIECES, sort.small(seed, FEW)):
        yield ("%s in pieces of %d" % (named(sort, number), size),
               lambda number=number, size=size: from_seed(sort, number, size))


def in_pieces(seed):
    """Some edges and some small generated files."""
    yield from edges_in_pieces(IN_PIECES, EDGES, DOMELINK)
    yield from cut_up(ANY, seed)


# ---- files with lends, resets and bursts

def allcalls_edges():
    for edge in ALLCALLS_EDGES:
        yield ("edge: " + edge.name,
               lambda edge=edge: from_edge(edge, form=ALLCALLS))


def others_in_pieces(seed):
    yield from edges_in_pieces(OTHERS_IN_PIECES, ALLCALLS_EDGES, ALLCALLS)
    yield from cut_up(LENDS, seed)


def bursts_in_pieces(seed):
    yield from cut_up(BURSTS, seed)

"""The trace of a program, line for line against the simulator's, on edges and
on generated files of every sort, with domelink's records and with allcalls'."""

from driver.cases import form_of
from driver.formats import ALLCALLS, DOMELINK
from driver.starting import play, play_in_pieces
from driver.suite import Outcome, Suite, first_difference
from driver.trace_reader import window_trouble
from edges.all_edges import ALLCALLS_EDGES, EDGES
from generator.seeds import SORTS
from simulator.listing import simulate
from simulator.trace import listing_of, trace

ALL = "all"                     # the argument with which all records are read
FEW = 3                         # files of a seed's sort that are cut in pieces
SIZES = (1, 7, 64)              # bytes at a time
LETTERS = "PEGRCTLZBWXF"


class TraceCase:
    """Rules 26.1 to 26.9: a file, and its trace by the rules' words."""

    def __init__(self, data, form, size=None):
        self.data = data
        self.form = form
        self.size = size
        self.lines = trace(data, form.kinds)
        wrong = listing_of(self.lines) != simulate(data, form.kinds)
        self.trouble = ("the trace is not that of the listing" if wrong
                        else window_trouble(self.lines))
        self.right = "".join(line + "\n" for line in self.lines).encode()


def edges():
    for edge in EDGES:
        yield ("trace of edge: " + edge.name,
               lambda edge=edge: TraceCase(edge.data, DOMELINK))
    for edge in ALLCALLS_EDGES:
        yield ("trace of edge: " + edge.name,
               lambda edge=edge: TraceCase(edge.data, ALLCALLS))


def traced(sort, seed):
    return "trace of %s, seed %d" % (sort.name or "any calls", seed)


def generated(count, seed):
    """A quarter of the files of each sort."""
    for sort in SORTS:
        for number in range(seed, seed + (count + 3) // 4):
            yield (traced(sort, number),
                   lambda sort=sort, number=number:
                   TraceCase(sort.generate(number), form_of(sort)))


def in_pieces(seed):
    for sort in SORTS:
        for number, size in zip(range(seed, seed + FEW), SIZES):
            yield ("%s in pieces of %d" % (traced(sort, number), size),
                   lambda sort=sort, number=number, size=size: TraceCase(
                       sort.generate(number)[:2000], form_of(sort), size))


class TraceSuite(Suite):
    """The traces of a program."""

    def __init__(self, program):
        super().__init__("trace", [program])
        self.letters = set()

    def start(self, case):
        command = self.command + [ALL] * (case.form is ALLCALLS)
        if case.size is None:
            return play(command, case.data)
        return play_in_pieces(command, case.data, case.size)

    def outcome(self, case):
        played = self.start(case)
        outcome = Outcome([case.trouble, first_difference(
            case.right, played.output), played.trouble], set())
        outcome.letters = {line[0] for line in case.lines}
        return outcome

    def note(self, outcome):
        self.letters |= outcome.letters

    def totals(self):
        if not self.gave_up():
            missing = sorted(set(LETTERS) - self.letters)
            self.test("every letter was seen",
                      missing and "never seen: %s" % ", ".join(missing))

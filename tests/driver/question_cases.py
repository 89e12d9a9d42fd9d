"""Files of questions with their right answers, to be put to domeplan: the
edges, the questions of docs/REFUSALS.md, every room, every way over the mesh,
every count, files in pieces, many lines at once, and generated files.

Each function yields names, and with each name how the case is made.
"""

from edges import refusals_page
from edges.questions import EDGES
from generator import question_seeds
from simulator.questions import answers, lines_of

PIECES = (1, 2, 3, 7, 64, 1000)         # bytes at a time
IN_PIECES = 4                           # every fourth edge is fed so
MANY = 20000                            # lines at once
FLOWS = range(1, 17)
ROOMS = range(81)                       # the longest plan has 76 bytes
BOARDS = range(64)                      # of the mesh
COUNTED_SLOTS = range(19)               # of a frame whose lists are counted
COUNTED_FLOWS = range(11)


class Questions:
    def __init__(self, data, answers, size=None, trouble=None):
        self.data = data
        self.lines = lines_of(data)
        self.answers = answers
        self.size = size            # bytes of a piece, or None for whole
        self.trouble = trouble      # what is wrong before anything is asked


def by_hand(pairs, end=b"\n", size=None):
    """Lines beside the answers that were worked out by hand, which have to be
    the simulator's too."""
    data = b"\n".join(line for line, _ in pairs) + end
    expected = [answer for _, answer in pairs]
    return Questions(data, expected, size, answers(data) != expected
                     and "the simulator gives %s" % answers(data)[-9:])


def simulated(data, size=None):
    return Questions(data, answers(data), size)


# ---- edges

def edges():
    for edge in EDGES:
        yield ("question: " + edge.name,
               lambda edge=edge: by_hand([(edge.line, edge.answer)]))
    pairs = [(edge.line, edge.answer) for edge in EDGES]
    yield "question: all edges in one file", lambda: by_hand(pairs)
    yield ("question: all edges, the last first",
           lambda: by_hand(pairs[::-1]))


def page():
    """The questions of docs/REFUSALS.md have the answers beside them."""
    for line, answer in refusals_page.questions():
        yield ("docs: question " + line[:40],
               lambda line=line, answer=answer:
               by_hand([(line.encode(), answer)]))


# ---- lines and their ends

def ends():
    """What is a line at the end of the input: rule 20.1."""
    good = b"plan 4 2 4", "R 2"
    for name, data, expected in (
            ("no input", b"", []),
            ("a newline alone", b"\n", ["?"]),
            ("three newlines", b"\n\n\n", ["?"] * 3),
            ("one line without a newline", good[0], [good[1]]),
            ("a last line without a newline",
             b"read\n" + good[0], ["R 1", good[1]]),
            ("an empty line before the end", good[0] + b"\n\n",
             [good[1], "?"]),
            ("a last line of 4,001 bytes without a newline",
             b"read\n" + 4001 * b"4", ["R 1", "?"])):
        yield ("question: " + name, lambda data=data, expected=expected:
               Questions(data, expected, trouble=answers(data) != expected
                         and "the simulator gives %s" % answers(data)))


def few_edges():
    """Some edges of each sort, short ones."""
    return [(edge.line, edge.answer) for edge in EDGES[::IN_PIECES]
            if len(edge.line) < 150]


def in_pieces(seed):
    for size in PIECES:
        yield ("question: edges in pieces of %d" % size,
               lambda size=size: by_hand(few_edges(), b"", size))
    for size in PIECES[3:]:
        yield ("questions, seed %d in pieces of %d" % (seed + size, size),
               lambda size=size: from_seed(seed + size, size))
    longest = [(edge.line, edge.answer) for edge in EDGES
               if 3990 <= len(edge.line) <= 4010]
    for size in PIECES[4:]:
        yield ("question: the longest lines in pieces of %d" % size,
               lambda size=size: by_hand(longest, size=size))


def many(seed):
    """Far more lines than are read at once, the same ones again and again."""
    data = question_seeds.generate(seed).rstrip(b"\n") + b"\n"
    times = MANY // data.count(b"\n") + 1
    return Questions(times * data, times * answers(data))


def many_lines(seed):
    for number in range(seed, seed + len(question_seeds.ORDER)):
        yield ("questions, seed %d again and again" % number,
               lambda number=number: many(number))


# ---- generated files

def every_room():
    """Buffers of 0 to 80 bytes for plans of 1 to 16 flows."""
    for flows in FLOWS:
        entries = b"".join(b" 1 1 %d 63" % node for node in range(flows))
        data = b"".join(b"room %d 16 2 16%s\n" % (room, entries)
                        for room in ROOMS)
        yield ("question: every room for %d flows" % flows,
               lambda data=data: simulated(data))


def every_way():
    """Each of the 4,032 pairs of boards: a stream alone, which is admitted,
    and two of the same ends that are over on every link of their way."""
    for source in BOARDS:
        ends = [b"%d %d" % (source, destination) for destination in BOARDS
                if destination != source]
        data = b"".join(b"mesh 1 %s 1\nmesh-over 1 %s 1 %s 1\n"
                        % (pair, pair, pair) for pair in ends)
        yield ("question: every way from board %d" % source,
               lambda data=data: simulated(data))


def every_count():
    """F = 1 to 16 and n = 1 to 8, and what lies beside them."""
    for slots in COUNTED_SLOTS:
        data = b"".join(b"count %d %d\n" % (slots, flows)
                        for flows in COUNTED_FLOWS)
        yield ("question: every count for F = %d" % slots,
               lambda data=data: simulated(data))


def from_seed(seed, size=None):
    return simulated(question_seeds.generate(seed), size)


def seeds(count, seed):
    for number in range(seed, seed + count):
        yield ("questions, seed %d (%s)"
               % (number, question_seeds.kind_of(number)),
               lambda number=number: from_seed(number))

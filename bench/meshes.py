"""The check of 64 streams over the mesh, each of 14 links: the proved one, and
the one in plain Rust, of a set that is admitted and of one that is refused.
Each program checks a set many times."""

import re
import subprocess

import programs

CORNERS = [(0, 63), (63, 0), (7, 56), (56, 7)]  # 14 links apart
STREAMS = 64
# F.  A link between corners carries 16 or 17: with 17 none is over, and all
# are looked at; with 15 the first that carries anything is over.
SLOTS = {"admitted": 17, "refused": 15}
FIGURES = re.compile(r"check ([0-9]+) ns\nanswers ([0-9]+)\n")


def question(slots):
    streams = (STREAMS // len(CORNERS)) * CORNERS
    return " ".join(["mesh %d" % slots]
                    + ["%d %d 1" % pair for pair in streams]).encode()


def figures(program, slots):
    """Nanoseconds of a check, and the sum of the answers."""
    text = subprocess.run([str(program)], input=question(slots), check=True,
                          stdout=subprocess.PIPE).stdout.decode()
    return tuple(map(int, FIGURES.fullmatch(text).groups()))


def measure(kind, folder, rounds):
    """Nanoseconds of a check of this kind by the two programs."""
    pair = (programs.proved("meshtime"), folder / "mesh")
    found = [[figures(program, SLOTS[kind]) for program in pair]
             for _ in programs.in_rounds("mesh " + kind, rounds)]
    if len({answers for row in found for _, answers in row}) != 1:
        programs.stop("the answers to checks of the mesh differ")
    return [min(column)[0] for column in zip(*found)]


def show(folder, rounds):
    for kind in SLOTS:
        ours, theirs = measure(kind, folder, rounds)
        print("mesh %-9s proved %6d ns   plain Rust %6d ns   ratio %6.2f"
              % (kind, ours, theirs, ours / theirs), flush=True)

"""How long a question `count F n` takes domeplan: a file of the same question
again and again, less the same for a frame of one slot."""

import tempfile
from pathlib import Path

import programs

QUESTIONS = 2000        # lines of a file
ASKED = ((16, 8), (16, 4), (8, 8), (8, 4))      # F and n
LEAST = (1, 1)


def write(folder, pair):
    path = Path(folder) / ("count-%d-%d" % pair)
    path.write_bytes(QUESTIONS * (b"count %d %d\n" % pair))
    return path


def measure(rounds):
    """Microseconds of a question, for each F and n."""
    with tempfile.TemporaryDirectory() as folder:
        paths = {pair: write(folder, pair) for pair in (LEAST, *ASKED)}
        best = dict.fromkeys(paths, float("inf"))
        for _ in programs.in_rounds("count", rounds):
            for pair, path in paths.items():
                best[pair] = min(best[pair], programs.seconds(
                    programs.proved("domeplan"), path))
    return {pair: (best[pair] - best[LEAST]) / QUESTIONS * 1e6
            for pair in ASKED}


def show(rounds):
    for pair, each in measure(rounds).items():
        print("count %2d %d  %8.1f microseconds" % (*pair, each))

"""Which optional layers to switch on: twelve layers with a budget for all
4,096 sets, asked of domeplan, beside the same questions with a budget of 1.
Time is the processor's, whatever else the machine does meanwhile."""

import os
import random
import subprocess
import tempfile
from pathlib import Path

import programs

QUESTIONS = 2000
SETS = 4096


def question(dice, budget):
    layers = " ".join("%d %d" % (dice.randint(1, 16), dice.randint(0, 1000))
                      for _ in range(12))
    return "extras %d %d %s\n" % (dice.randint(16, 64), budget, layers)


def make(folder, budget):
    """A file of questions, the same layers for each budget."""
    path = Path(folder) / ("extras-%d" % budget)
    dice = random.Random(12)
    path.write_text("".join(question(dice, budget)
                            for _ in range(QUESTIONS)))
    return path


def microseconds(path):
    """Of one question."""
    with open(path, "rb") as source:
        started = subprocess.Popen([str(programs.proved("domeplan"))],
                                   stdin=source, stdout=subprocess.DEVNULL)
        _, status, usage = os.wait4(started.pid, 0)
    started.returncode = os.waitstatus_to_exitcode(status)
    if started.returncode != 0:
        programs.stop("domeplan ended with %d" % started.returncode)
    return 1e6 * (usage.ru_utime + usage.ru_stime) / QUESTIONS


def measure(rounds):
    """Microseconds of a question with all sets, and of one with one set."""
    with tempfile.TemporaryDirectory() as folder:
        paths = [make(folder, budget) for budget in (SETS, 1)]
        best = [float("inf")] * len(paths)
        for _ in programs.in_rounds("extras", rounds):
            best = [min(least, microseconds(path))
                    for least, path in zip(best, paths)]
    return best


def show(rounds):
    print("12 layers, all %d sets %6.1f microseconds a question, "
          "one set %.1f" % (SETS, *measure(rounds)))

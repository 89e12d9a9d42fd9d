"""Show files by chance through what ./dome is made of, beside the second
simulator: the same plan files and index, or a refusal on both sides; and runs
of them in which no bound is passed."""

import random
import sys

from front_door.command import ROOT
from shows.show_texts import ShowText

sys.path.insert(0, str(ROOT / "tools"))

SLOTS = 300


def plan_files(answer):
    """The plan files of the lines that answer a show, by name."""
    found = {}
    for line in answer[1:]:
        _, source, destination, text = line.split(" ", 3)
        found["%s-%s.plan" % (source, destination)] = bytes.fromhex(text)
    return found


def taken(show):
    """What ./dome makes of a text: its plans, and the faults it tells."""
    from dome import planned, refused, show_file
    read, faults = show_file.read(show.text.encode())
    if faults:
        return None, faults
    answers = planned.Planned(read)
    return answers, refused.faults(answers)


def compare_files(seed):
    """What differs, or None; and the refusal that came."""
    from dome import plans
    show = ShowText(seed)
    expected = show.expected()
    answers, faults = taken(show)
    if answers is None:
        return "seed %d: %s" % (seed, faults), expected[0]
    if expected[0] != "ok":
        number = int(expected[0].split()[1])
        return (not faults or answers.answer.refusal != number) and (
            "seed %d: %s, and %d faults" % (seed, expected[0], len(faults))
        ), expected[0]
    files = {} if faults else plans.files(answers)
    index = files.pop("index.txt", b"").decode().splitlines()[1:]
    wrong = files != plan_files(expected) or index != show.index()
    return wrong and "seed %d: other files: %s" % (
        seed, sorted(files)[:5]), expected[0]


def some_of(chance, names):
    return set(chance.sample(names, chance.randint(0, min(3, len(names)))))


def run(seed):
    """Plays a show that passes, with greedy and late streams by chance: what
    is wrong, or None; and how many streams kept their premises."""
    from dome import play, run_options, told
    show = ShowText(seed)
    answers, faults = taken(show)
    if answers is None or faults:
        return None, 0
    chance = random.Random("run %d" % seed)
    options = run_options.Options()
    options.slots, options.seed = SLOTS, seed
    options.greedy = some_of(chance, show.names)
    options.late = some_of(chance, show.names)
    options.ahead = chance.random() < 0.5
    dome = play.played(answers, options)
    found = told.passed(dome, SLOTS)
    return found and "seed %d: %s" % (seed, found), sum(
        one.keeps() for one in dome.streams)

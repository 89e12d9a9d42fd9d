"""Questions to the proved programs: domeshow for plans, domeplan for
bounds."""

import subprocess
from pathlib import Path

BIN = Path(__file__).resolve().parents[2] / "target/bin"


class Broken(Exception):
    """A program that answers what it should not."""


class Answer:
    """What domeshow answers: the show's refusal, the plan's bytes of each
    link that is used and has one, and the refusals of the others.  A link is
    a pair of boards."""

    def __init__(self):
        self.refusal = 0
        self.plans = {}
        self.refusals = {}

    def links(self):
        return sorted([*self.plans, *self.refusals])


def ask(program, question, questions=1):
    """The lines that a program answers to so many questions."""
    done = subprocess.run([str(BIN / program)], input=question.encode(),
                          stdout=subprocess.PIPE, check=False)
    lines = done.stdout.decode("ascii", "replace").splitlines()
    if done.returncode or len(lines) < questions:
        raise Broken("%s answered %r to %r"
                     % (program, lines[:1], question[:60]))
    return lines


def number_after(letter, words):
    """The number of a refusal, or None."""
    if len(words) == 2 and words[0] == letter and words[1].isdigit():
        return int(words[1])
    return None


def ask_show(dome, streams):
    """The answer to a show of these streams."""
    numbers = [dome["F"], dome["W"], dome["N"]]
    for s in streams:
        numbers += [s.source, s.destination, s.share]
    for s in streams:
        numbers += [s.cells, s.last_cells]
    lines = ask("domeshow", " ".join(["show"] + [str(n) for n in numbers]))
    answer = Answer()
    if lines[0].startswith("?"):
        raise Broken("domeshow answered %r" % lines[0])
    if lines[0] != "ok":
        answer.refusal = number_after("R", lines[0].split())
    for line in lines[1:]:
        word, source, destination, *rest = line.split()
        link = (int(source), int(destination))
        if word != "link" or not rest:
            raise Broken("domeshow answered %r" % line)
        if len(rest) == 1:
            answer.plans[link] = bytes.fromhex(rest[0])
        else:
            answer.refusals[link] = number_after("R", rest)
    return answer


def ask_faults(dome, flows):
    """What is wrong with each plan of the dome and one of these flows: three
    numbers for each fault, as rule 15.4 has them."""
    lines = ask("domeplan", "".join("faults %d %d %d %d %d %d %d\n" % (
        dome["F"], dome["W"], dome["N"], *flow) for flow in flows),
        len(flows)) if flows else []
    return [threes(line) for line in lines]


def threes(line):
    if line == "ok":
        return []
    words = line.split()
    if len(words) % 3 or not all(word.isdigit() for word in words):
        raise Broken("domeplan answered %r" % line[:60])
    numbers = [int(word) for word in words]
    return list(zip(numbers[::3], numbers[1::3], numbers[2::3]))


class Bound:
    """What domeplan answers of a delay: slots, and two numbers of cells."""

    def __init__(self, slots, cells, shown):
        self.slots = slots
        self.cells = cells
        self.shown = shown


def ask_bounds(dome, streams, hops):
    """The bound of each stream, None where domeplan has none for it."""
    lines = ask("domeplan", "".join(
        "delay %d %d %d %d\n" % (dome["F"], n, s.share, s.burst)
        for s, n in zip(streams, hops)), len(streams)) if streams else []
    bounds = []
    for line in lines:
        words = line.split()
        known = len(words) == 3 and all(word.isdigit() for word in words)
        bounds.append(Bound(*map(int, words)) if known else None)
    return bounds

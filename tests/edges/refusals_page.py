"""The inputs of docs/REFUSALS.md: each has to end in the line beside it."""

import re
from pathlib import Path

TEXT = Path(__file__).resolve().parents[2] / "docs/REFUSALS.md"
PLAN = re.compile(r"^- ([A-Z]) = `([0-9A-F ]+)`")
ALL = range(1, 30)      # the refusals of all programs
NAMED = re.compile(r"`([a-z]+)`: ")     # a program that an input is for alone


def plans(lines):
    """The plans that the page names by a letter."""
    found = filter(None, map(PLAN.match, lines))
    return {plan.group(1): bytes.fromhex(plan.group(2)) for plan in found}


def input_of(cell, named):
    """The bytes of an input: a letter for a plan, and hexadecimal bytes."""
    data = b""
    for text in re.findall(r"[A-Z](?= `)|`[0-9A-F ]+`", cell):
        data += named.get(text) or bytes.fromhex(text.strip("`"))
    return data


def cells_of(lines):
    """The cells of each row of the tables."""
    for line in lines:
        if line.startswith("|"):
            yield [cell.strip() for cell in line.strip().strip("|").split("|")]


def refusal_rows(lines):
    """Number, sentence, input and last line of each refusal, and the program
    that the input is for, or None for every program that plays calls."""
    for cells in cells_of(lines):
        if len(cells) == 5 and cells[0].isdecimal():
            number, when, _, given, last = cells
            only = NAMED.match(given)
            yield (int(number), when, given[only.end() if only else 0:],
                   last.strip("`"), only and only.group(1))


def page():
    return TEXT.read_text().splitlines()


def sentences():
    """When each number is given, in the words of its first row."""
    rows = list(refusal_rows(page()))
    return {number: when for number, when, *_ in reversed(rows)}


def examples(program=None):
    """Number, call file and last line: those for every program, or those for
    one alone."""
    lines = page()
    named = plans(lines)
    return [(number, input_of(given, named), last)
            for number, _, given, last, only in refusal_rows(lines)
            if only == program]


def questions():
    """Lines of domeplan beside their answers."""
    asked = [(given.strip("`"), last)
             for _, _, given, last, only in refusal_rows(page())
             if only == "domeplan"]
    return asked + [(cells[0].strip("`"), cells[1].strip("`"))
                    for cells in cells_of(page())
                    if len(cells) == 3 and cells[0].startswith("`")]


def numbers():
    """The refusals that have a row."""
    return {number for number, *_ in refusal_rows(page())}

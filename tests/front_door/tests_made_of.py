"""What the number of executed tests is made of, as tests/README.md tells it:
how many inputs there are, and how many programs each goes through."""

import re

from driver import (
    ahead_suite, cases, pair_suite, question_cases, trace_suite, way_suite)
from driver.formats import ALLCALLS
from front_door.pages import page
from generator import seeds

COUNT, SEED = 400, 1            # what tests/run plays where nothing is said
NEAR = 0.05                     # how far a number may be off, as a part of it
NUMBER = re.compile(r"\b\d[\d,]*\b")


def generated(*sorts):
    return [cases.generated(sort, COUNT, SEED) for sort in sorts]


def questions():
    for make in (question_cases.edges, question_cases.page,
                 question_cases.ends, question_cases.every_room,
                 question_cases.every_way, question_cases.every_count):
        yield make()
    yield question_cases.in_pieces(SEED)
    yield question_cases.many_lines(SEED)
    yield question_cases.seeds(COUNT, SEED)


def counts():
    """Inputs through six programs, four, two, and one: traces, questions."""
    groups = (
        [cases.edges(), cases.page(), cases.in_pieces(SEED),
         *generated(seeds.ANY, seeds.DEPARTURES, seeds.NUMBERS)],
        [cases.allcalls_edges(), cases.page(ALLCALLS),
         cases.others_in_pieces(SEED), cases.bursts_in_pieces(SEED),
         *generated(seeds.LENDS, seeds.RESETS, seeds.BURSTS)],
        [pair_suite.seeds(COUNT, SEED), way_suite.cases(COUNT, SEED),
         ahead_suite.seeds(COUNT, SEED)],
        [trace_suite.edges(), trace_suite.in_pieces(SEED),
         trace_suite.generated(COUNT, SEED)],
        list(questions()))
    return [sum(1 for names in group for _ in names) for group in groups]


def right_numbers():
    """Those of the paragraph, in their order.  A trace is of a file that is
    counted already."""
    six, four, two, traces, asked = found = counts()
    return [*found, six + four + two + asked,
            6 * six + 4 * four + 2 * two + traces + asked]


def told(text):
    """The numbers of the paragraph."""
    paragraph = text.partition("**What the number is made of.**")[2]
    return [int(number.replace(",", ""))
            for number in NUMBER.findall(paragraph.partition("\n")[0])]


def true():
    said, right = told(page("tests/README.md")), right_numbers()
    if len(said) != len(right) or any(
            abs(one - other) > NEAR * other
            for one, other in zip(said, right)):
        return "%s for %s" % (said, right)
    return None


def tests(_):
    yield "docs: tests/README.md, what the number is made of", true

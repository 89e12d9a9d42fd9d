"""Writes the names of the tests by hand that tell what is wrong with the
second simulator beside it: questions with their answers, and images."""

from edges.questions import EDGES, NO_QUESTION
from images import self_tests
from simulator.questions import answers

BY_CHANCE = ("chance", "after each call", "leave taken")   # these take long


def wrong_answer(edge):
    try:
        found = list(answers(edge.line + b"\n"))
    except Exception:                   # a mistake may end in anything
        return True
    right = [edge.answer]
    if edge.answer == NO_QUESTION:
        found = [line[:1] for line in found]
    return found != right


def fails(test):
    try:
        return bool(test())
    except Exception:                   # likewise
        return True


def main():
    for edge in EDGES:
        if wrong_answer(edge):
            print(edge.name)
    for name, test in self_tests.tests():
        if not any(word in name for word in BY_CHANCE) and fails(test):
            print(name)


if __name__ == "__main__":
    main()

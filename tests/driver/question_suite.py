"""The tests of domeplan: questions put to it, and its answers compared."""

import re
from itertools import zip_longest

from driver.starting import play
from driver.suite import Outcome, Suite
from simulator.questions import NO_QUESTION

REASON = re.compile(r"\? [ -~]{3,150}")         # short, and in plain letters
FAULT = re.compile(r"(\d+) (\d+) (\d+)(?: |$)")

# Of a fault, which of its two other numbers says what the limit is of.
LIMITS = {3: 1, 4: 2, 28: 2}

# Each word, and what has to have come up for it: 0 is an answer, and an answer
# that is a word by itself stands here as that word; of faults each limit.
WAYS = {"plan": {0, 2, 3, 4, 5, 6, 7}, "room": {0, 2, 3, 4, 5, 6, 7, 19},
        "read": {0, 1, 2, 3, 4, 5, 6, 7},
        "mesh": {"ok", 3, 4, 25}, "mesh-over": {0, "ok", 3, 4, 25},
        "count": {0, 26}, "extras": {0, 27}, "programme": {0, "dark", 28, 29},
        "faults": {"ok", (2,), *((3, k) for k in range(4)),
                   *((4, k) for k in range(5)), (5,), (6,), (7,)},
        "week-faults": {"ok", *((28, k) for k in range(3)), (29,)}}


def is_right(expected, answer):
    """A line that is no question is told by its question mark: the reason is
    the program's own."""
    if expected == NO_QUESTION:
        return bool(REASON.fullmatch(answer))
    return answer == expected


def shown(text):
    return "no line" if text is None else repr(text[:60])


def first_difference(case, output):
    """Text on the first answer that is not the right one, or None."""
    *answers, rest = output.decode("latin-1").split("\n")
    if rest:
        return "ends in %r without a newline" % rest[-60:]
    for place, (expected, answer) in enumerate(
            zip_longest(case.answers, answers)):
        if None in (expected, answer) or not is_right(expected, answer):
            line = case.lines[place] if place < len(case.lines) else b""
            return "line %d, %r: expected %s, got %s" % (
                place + 1, line[:60], shown(expected), shown(answer))
    return None


def limits(answer):
    """The limits that are told, three numbers for each fault."""
    for fault in FAULT.findall(answer):
        number = int(fault[0])
        which = LIMITS.get(number)
        yield (number, int(fault[which])) if which else (number,)


def ways(line, answer):
    """How a question was answered: its word, and the refusal, 0, or each
    limit that is told."""
    if answer.startswith("?"):
        return {"?"}
    word = line.split(b" ")[0].decode("latin-1")
    if answer.startswith("R ") and answer[2:].isdecimal():
        return {(word, int(answer[2:]))}
    if answer.isalpha():
        return {(word, answer)}
    if word in ("faults", "week-faults"):
        return {(word, limit) for limit in limits(answer)}
    return {(word, 0)}


class QuestionSuite(Suite):
    """The refusals that were seen are kept by the word of the question."""

    def outcome(self, case):
        """One file of questions: answers and end."""
        played = self.start(case)
        answers = played.output.decode("latin-1").splitlines()
        return Outcome([case.trouble, first_difference(case, played.output),
                        played.trouble],
                       set().union(*map(ways, case.lines, answers)))

    def answers(self, lines):
        """Its answers to some lines."""
        output = play(self.command, b"".join(
            line.encode() + b"\n" for line in lines)).output
        return output.decode("latin-1").splitlines()

    def totals(self):
        """What has to have come up in all files together."""
        if self.gave_up():
            return
        for word, numbers in WAYS.items():
            missing = sorted((number for number in numbers
                              if (word, number) not in self.seen), key=str)
            self.test("%s: each way was seen, 0 for an answer" % word,
                      missing and "never seen: %s" % missing)
        self.test("lines that are no question were seen",
                  "?" not in self.seen and "none")

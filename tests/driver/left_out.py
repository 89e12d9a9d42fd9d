"""What is left out where a tool is not on the machine.  It is said right
before the last line, with how many tests that is, and fails unless the
environment's NAZGOLV_WITHOUT names the tool: NAZGOLV_WITHOUT=cc,rustc"""

import os

VARIABLE = "NAZGOLV_WITHOUT"
TOOLS = ("cc", "c++", "rustc", "node", "groff", "valgrind", "sanitiser")


class Part:
    """A part of the tests, and the tool that it wants."""

    def __init__(self, tool, what, tests, like):
        self.tool = tool
        self.what = what
        self.tests = tests      # how many by itself
        self.like = like        # suites whose files it would play too

    def count(self, suites):
        sizes = {suite.name: suite.passed + suite.failed for suite in suites}
        return self.tests + sum(sizes.get(name, 0) for name in self.like)

    def text(self, suites):
        return "left out, since %s is not here: %s, %d tests" % (
            self.tool, self.what, self.count(suites))


PARTS = []


def leave_out(tool, what, tests, like=()):
    """Keeps in mind that a part is left out for want of a tool."""
    PARTS.append(Part(tool, what, tests, like))


def named(words):
    """The tools that may be missing, and the words that name none."""
    tools = [word.strip() for word in words.split(",") if word.strip()]
    return set(tools), [tool for tool in tools if tool not in TOOLS]


def lines(parts, suites, words):
    """What is said of the parts that are left out, and how many of these were
    not to be."""
    may, unknown = named(words)
    said = [part.text(suites) for part in parts]
    missed = sorted({part.tool for part in parts} - may)
    said += ["%s has to name %s" % (VARIABLE, tool) for tool in missed]
    said += ["%s names %s, which is none of %s"
             % (VARIABLE, word, ", ".join(TOOLS)) for word in unknown]
    return said, len(missed) + len(unknown)


def told(suites):
    return lines(PARTS, suites, os.environ.get(VARIABLE, ""))

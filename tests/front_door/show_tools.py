"""The modules of tools/show, for tests that use them without a command, on
the second simulator's trace."""

import sys

from front_door.command import ROOT
from simulator.records import ALLCALLS, DOMELINK
from simulator.trace import trace

sys.path.append(str(ROOT / "tools/show"))

import call_file        # noqa: E402, F401
import call_text        # noqa: E402, F401
import explain          # noqa: E402, F401
import kept             # noqa: E402, F401
import most_held        # noqa: E402, F401
import page             # noqa: E402, F401
import run_health       # noqa: E402, F401
import text_lines       # noqa: E402, F401
import timeline         # noqa: E402, F401
import summary          # noqa: E402, F401
import trace_words      # noqa: E402, F401
from paragraphs import paragraph    # noqa: E402, F401


class Refused(Exception):
    """A plan is refused, with a number."""


def plan_and_lines(data, all_calls=False):
    """The plan of a call file, and the lines of its trace after it."""
    lines = trace(data, ALLCALLS if all_calls else DOMELINK)
    first = lines[0].split()
    if first[1] != "0":
        raise Refused(int(first[1]))
    calls = 1 + int(first[5])
    return trace_words.TracedPlan(
        first, [line.split() for line in lines[1:calls]]), lines[calls:]


def followed(make, data, all_calls=False):
    """What is made of a file's plan, when it has read the lines after it."""
    plan, lines = plan_and_lines(data, all_calls)
    reader = make(plan)
    reader.add(lines)
    return reader


def explained(data, all_calls=False):
    """A file in words."""
    said = []
    try:
        told = followed(lambda plan: explain.Telling(plan, said.append), data,
                        all_calls)
    except Refused as refused:
        return explain.refused_page(*refused.args)
    return "".join(said) + "\nSummary\n" + explain.summary_page(told.summary)

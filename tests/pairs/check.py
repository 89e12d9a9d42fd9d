"""The verdict on a pair of runs: rule 21.11, checked from two call files and
two listings alone.

Every beginning of two aligned lists is a pair too, so that a request is judged
if the premise holds in both runs up to it.
"""

import struct
from collections import Counter

from demand3.check import allcalls, countable, tell_all
from pairs.run import Run

KINDS = allcalls(Run)

# What comes up in a pair as far as it is judged, counted for the totals.
SAME_SLOT, OTHER_SLOT = "the same slot", "another slot of the frame"
BOTH_REFUSED, ILL_FORMED = "refused in both", "ill-formed, refused alike"
OTHER_NUMBER = "with different numbers"
GRANTS_DIFFER = "different in frame 0"
ONE_CREDIT, ONE_LEND = "credits taken in one run only", "lent in one run only"
WAYS = (SAME_SLOT, OTHER_SLOT, BOTH_REFUSED, ILL_FORMED, OTHER_NUMBER,
        GRANTS_DIFFER, ONE_CREDIT, ONE_LEND)


class Verdict:
    """What was found: faults as text; the first premise that was broken, or
    None; the frame changes up to there; and the ways, with their counts."""

    def __init__(self):
        self.faults = []
        self.broken = None
        self.changes = 0
        self.ways = Counter()


def told(verdict, flow, left_out, data, lines):
    """The run that a listing tells of, or None where it tells of none; what is
    asked of it is rule 21.11's."""
    if not lines or lines[0] != "P 0" or not countable(data):
        verdict.faults.append("the plan was not accepted")
        return None
    run = Run(data, flow, verdict, left_out)
    tell_all(run, data, lines, KINDS)
    return run


def plan_of(data):
    return data[:struct.unpack_from("<H", data)[0]]


def not_aligned(first, second):
    """Where the calls that have to be the same are not, as text, or None."""
    for place, (one, other) in enumerate(zip(first.steps, second.steps)):
        if one.call != other.call:
            return "step %d is %s and %s" % (place, one.call, other.call)
    if len(first.steps) != len(second.steps):
        return "%d steps and %d" % (len(first.steps), len(second.steps))
    return None


def judge_request(verdict, one, other, frame_slots):
    """The conclusion for a request after the first frame change."""
    where = "the request %#x in slot %d" % (one.call[1], one.now)
    if one.granted() != other.granted():
        verdict.faults.append("%s is granted in one run, refused in the other"
                              % where)
    elif one.granted():
        frames = one.slot // frame_slots, other.slot // frame_slots
        if frames[0] != frames[1]:
            verdict.faults.append("%s is granted in frames %d and %d"
                                  % (where, *frames))
        verdict.ways[SAME_SLOT if one.slot == other.slot else OTHER_SLOT] += 1
    elif one.quantum is not None:
        verdict.ways[BOTH_REFUSED] += 1
    elif one.answer == other.answer:
        verdict.ways[ILL_FORMED] += 1
    else:
        verdict.faults.append("%s is no good word, and refused with %s and %s"
                              % (where, one.answer[1], other.answer[1]))
    verdict.ways[OTHER_NUMBER] += (one.quantum != other.quantum
                                   and one.quantum is not None)


def note_first(verdict, one, other, frame_slots):
    """A request in frame 0, of which nothing is said."""
    def frame(step):
        return step.granted() and step.slot // frame_slots
    verdict.ways[GRANTS_DIFFER] += (
        one.granted() != other.granted() or frame(one) != frame(other))


def judge_steps(verdict, first, second):
    """Step by step, as far as the premise holds.  The slot it ends in."""
    frame_slots = first.frame_slots
    for one, other in zip(first.steps, second.steps):
        verdict.broken = one.broken or other.broken
        if verdict.broken:
            return one.now
        if one.kind() == "tick":
            verdict.changes = (one.now + 1) // frame_slots
        elif one.kind() == "credit":
            verdict.ways[ONE_CREDIT] += one.answer[0] != other.answer[0]
        elif one.now >= frame_slots:
            judge_request(verdict, one, other, frame_slots)
        else:
            note_first(verdict, one, other, frame_slots)
    return first.now


def judge(flow, first, second, left_out=()):
    """The verdict on two runs, each a call file and the lines of its listing.
    Premises can be left out, to show that they are needed."""
    verdict = Verdict()
    runs = [told(verdict, flow, left_out, *run) for run in (first, second)]
    if None in runs:
        return verdict
    trouble = (plan_of(first[0]) != plan_of(second[0]) and "two plans"
               or not_aligned(*runs))
    if trouble:
        verdict.faults.append("not aligned: " + trouble)
        return verdict
    end = judge_steps(verdict, *runs)
    verdict.broken = verdict.broken or runs[0].broken or runs[1].broken
    verdict.ways[ONE_LEND] = sum(
        slot < end for slot in runs[0].lent ^ runs[1].lent)
    return verdict

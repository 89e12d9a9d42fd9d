"""The verdict on two runs, the second with tiles sent ahead: rules 24.4 to
24.7, checked from two call files and two listings alone."""

from collections import Counter

from ahead.run import Run
from ahead.sending import Sending
from demand3.check import allcalls, countable, tell_all
from pairs.check import plan_of

KINDS = allcalls(Run)

# The premises.
ORDER, ALONE, LENT = PREMISES = (
    "a grant before a slot that was sent ahead",
    "a credit taken in the second run alone",
    "a lend answered in one run alone")

# What comes up as far as two runs are judged.
SENT, SAME_WORD, BOTH_REFUSED = (
    "sent ahead", "granted with one word", "refused in both")
OTHER_NUMBER, TO_COME = "refused with two numbers", "asked ahead, granted"
TAKEN, NOT_TAKEN, BOTH_LENT = (
    "credits taken", "credits refused in both", "lent in both")
AFRESH, NOT_AFRESH = "resets granted in both", "resets refused in both"
AFTER_RESET = "sent ahead after a granted reset"
WAYS = (SENT, SAME_WORD, BOTH_REFUSED, OTHER_NUMBER, TO_COME, TAKEN,
        NOT_TAKEN, BOTH_LENT, AFRESH, NOT_AFRESH, AFTER_RESET)


class Verdict:
    def __init__(self):
        self.faults = []
        self.broken = None          # the first premise that was broken
        self.ways = Counter()
        self.gains = []             # slots, of each tile sent ahead
        self.flows = set()          # that sent ahead


class Broken(Exception):
    """A premise that two runs break."""


class Fault(Exception):
    """What is wrong with two runs."""


def told(verdict, data, lines):
    if not lines or lines[0] != "P 0" or not countable(data):
        raise Fault("the plan was not accepted")
    run = Run(verdict)
    tell_all(run, data, lines, KINDS)
    if verdict.faults:
        raise Fault("a listing is none")
    return run.events


def a_pair(events, place):
    """Whether a lend and a taken credit of its flow stand here."""
    flow = events[place].lends_to()
    if flow is None or place + 1 == len(events):
        return False
    after = events[place + 1]
    return (after.kind == "credit" and after.letter == "C"
            and after.call[0] == flow)


def aligned(first, second):
    """Steps: a call of both, as two events, or a pair of the second run, as
    its credit alone."""
    at = [0, 0]
    while at[0] < len(first) or at[1] < len(second):
        one = first[at[0]] if at[0] < len(first) else None
        other = second[at[1]] if at[1] < len(second) else None
        if (one and other and one.lends_to() is not None
                and one.lends_to() == other.lends_to()):
            yield one, other
            at = [at[0] + 1, at[1] + 1]
        elif other and a_pair(second, at[1]):
            yield None, second[at[1] + 1]
            at[1] += 2
        elif other and other.kind == "lend" and other.lends_to() is None:
            at[1] += 1
        elif one and one.kind == "lend" and one.lends_to() is None:
            at[0] += 1
        elif (one and one.kind == "lend") or (other and other.kind == "lend"):
            raise Broken(LENT)
        elif not one or not other or not one.same_call(other):
            raise Fault("not aligned: %s and %s" % (
                one and (one.kind, one.call), other and (other.kind,
                                                         other.call)))
        else:
            yield one, other
            at = [at[0] + 1, at[1] + 1]


class Judge:
    """The steps of two runs, one after the other."""

    def __init__(self, verdict, data, left_out, in_order):
        self.verdict = verdict
        self.left_out = left_out            # premises that are not looked at
        self.sending = Sending(data, in_order)

    def premise(self, name, holds):
        if not holds and name not in self.left_out:
            raise Broken(name)

    def where(self, text):
        return "slot %d: %s" % (self.sending.now, text)

    def must(self, holds, text):
        if not holds:
            raise Fault(self.where(text))

    def must_not(self, wrong):
        if wrong:
            raise Fault(self.where(wrong))

    def step(self, one, other):
        if one is None:
            self.pair(*other.call)
        else:
            getattr(self, one.kind)(one, other)

    def pair(self, flow, position):
        wrong = self.sending.ahead(flow, position)
        self.must_not(wrong)
        self.verdict.ways[SENT] += 1
        self.verdict.ways[AFTER_RESET] += bool(self.verdict.ways[AFRESH])
        self.verdict.flows.add(flow)

    def request(self, one, other):
        sending, word = self.sending, one.call[0]
        flow = word >> 20 & 63
        latest = (sending.latest[flow] if flow < len(sending.latest) else 0)
        if one.letter == "G":
            self.premise(ORDER, latest <= sending.slot_after_now(
                int(one.number)))
        self.must((one.letter, one.letter == "G" and one.number)
                  == (other.letter, other.letter == "G" and other.number),
                  "the request %#x is answered with %s %s and %s %s" % (
                      word, one.letter, one.number, other.letter,
                      other.number))
        self.must(latest > sending.now or one.number == other.number,
                  "the request %#x is refused with %s and %s" % (
                      word, one.number, other.number))
        self.count_request(one, other)

    def count_request(self, one, other):
        ways, word = self.verdict.ways, one.call[0]
        if one.letter == "G":
            ways[SAME_WORD] += 1
            ways[TO_COME] += self.sending.due(word & 1023) > self.sending.now
            self.sending.book(word, int(other.number))
        else:
            ways[BOTH_REFUSED] += 1
            ways[OTHER_NUMBER] += one.number != other.number

    def credit(self, one, other):
        self.premise(ALONE, one.letter == "C" or other.letter != "C")
        self.must(one.letter != "C" or other.letter == "C",
                  "a credit of flow %d is taken in the first run alone"
                  % one.call[0])
        self.verdict.ways[TAKEN if one.letter == "C" else NOT_TAKEN] += 1
        if other.letter == "C":
            self.sending.give(*other.call)

    def lend(self, one, other):
        self.verdict.ways[BOTH_LENT] += 1
        self.must_not(self.sending.lend(other.lends_to()))

    def tick(self, one, other):
        self.must(one.number == other.number,
                  "the next comes up for %s and %s" % (one.number,
                                                       other.number))
        owner = None if other.number == "-" else int(other.number)
        self.must_not(self.sending.tick(owner))

    def reset(self, one, other):
        """Nothing is asked for: each slot that was sent ahead is booked, so
        that none is to come where a reset is granted."""
        self.must((one.letter, one.number) == (other.letter, other.number),
                  "a reset is answered with %s and %s" % (
                      " ".join(filter(None, (one.letter, one.number))),
                      " ".join(filter(None, (other.letter, other.number)))))
        self.verdict.ways[AFRESH if one.letter == "Z" else NOT_AFRESH] += 1


def judge(first, second, left_out=(), in_order=True):
    """The verdict on two runs, each a call file and the lines of its listing.
    Premises can be left out, to show that they are needed."""
    verdict = Verdict()
    try:
        runs = [told(verdict, *run) for run in (first, second)]
        if plan_of(first[0]) != plan_of(second[0]):
            raise Fault("not aligned: two plans")
        judging = Judge(verdict, second[0], left_out, in_order)
        verdict.gains = judging.sending.gains
        for one, other in aligned(*runs):
            judging.step(one, other)
    except Broken as broken:
        verdict.broken = str(broken)
    except Fault as fault:
        verdict.faults.append(str(fault))
    return verdict

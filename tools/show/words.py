"""A line of a trace in words: a call, and its answer.  A sentence has no
capital and no full stop of its own, so that it can stand in a line."""

from refusals import refusal, rows
from trace_words import (
    AHEAD, CREDIT, DEPARTURE, EXPECTED, FLOW, KIND, LAST, LEND, MASK, NOBODY,
    NUMBER, POSITION, REFUSAL, REQUEST, RESET, TO, UNTOUCHED, VALUE, WORDS)

NO_CALL = 16                    # the refusal of bytes that are no call
KINDS = {REQUEST: "request", CREDIT: "credit", "3": "tick", LEND: "lend",
         RESET: "reset", "6": "word"}


def plural(count, name, more=None):
    return "%d %s" % (count, name if count == 1 else more or name + "s")


def listed(numbers, last="or"):
    """1, 2 or 3."""
    words = [str(number) for number in numbers]
    if len(words) < 2:
        return "".join(words)
    return "%s %s %s" % (", ".join(words[:-1]), last, words[-1])


def place(slot, plan):
    """A slot by its number, position and frame."""
    return "slot %d (position %d, frame %d)" % (
        slot, slot % plan.positions, slot // plan.frame_slots)


def came_up(change, owner):
    """What is said of a slot that has come up, by two words of its line."""
    return " has come up%s: %s" % (
        ", with a frame change" if change == "1" else "",
        "nobody booked it" if owner == NOBODY else "it is flow %s's" % owner)


def no_position(held, cells):
    """Why the newest frame has no valid position, where the flow holds so many
    of its cells in the window's last slot."""
    if held < cells:
        return "the slots that its cells would allow are booked"
    return ("its only cell is held" if cells == 1
            else "all of its %d cells are held" % cells)


def plan_words(plan):
    """The lines for an accepted plan: its numbers and its flows."""
    return ["the plan is accepted: F = %s to a frame, W = %d frames in "
            "the window, T = %d positions, N = %s in the buffer" % (
                plural(plan.frame_slots, "slot"), plan.window_frames,
                plan.positions, plural(plan.buffer, "place"))] + [
        "flow %d: from node %d to node %d, share %d, %s" % (
            flow.number, flow.source, flow.destination, flow.share,
            plural(flow.cells, "cell")) for flow in plan.flows]


def refused_with(number, kind, known, reason=""):
    """A refusal with its row of docs/REFUSALS.md, out of what rows() gave."""
    row = refusal(number, kind, known)
    to_do = "; what to do: " + row.what_to_do if row.what_to_do else ""
    return "refused with %d: %s%s%s" % (number, row.when, reason, to_do)


def lends_to(mask):
    """The flows of a lend's mask."""
    return [flow for flow in range(16) if mask >> flow & 1]


class Words:
    """The words for the lines of a trace, which come one after the other;
    `slot` is the current one."""

    def __init__(self, plan):
        self.plan = plan
        self.slot = 0
        self.known = rows()
        self.refusals = {}              # sentences that were said before
        self.goes_to = {str(flow.number): str(flow.destination)
                        for flow in plan.flows}
        self.cells = {str(flow.number): plural(flow.cells, "cell")
                      for flow in plan.flows}
        self.kinds = {REQUEST: self.of_word, CREDIT: self.of_credit,
                      LEND: self.of_lend, RESET: self.a_reset}
        # What is asked, and what is answered, by the letters of lines that
        # are rare; telling.py has the others.
        self.calls = {"L": self.of_lend, "Z": self.a_reset,
                      "X": self.no_call, "W": self.a_burst}
        self.answers = {"L": self.lent, "Z": self.reset, "X": self.refused}

    # ---- calls

    def of_refused_call(self, words):
        return self.kinds[words[KIND]](words)

    @staticmethod
    def a_reset(words):
        return "a local reset"

    @staticmethod
    def of_credit(words):
        return (f"flow {words[FLOW]} gives a cell back, dated position "
                f"{words[POSITION]}")

    @staticmethod
    def of_lend(words):
        flows = lends_to(int(words[MASK]))
        return "the current slot is to be lent to %s" % (
            "flow " + listed(flows) if flows else "no flow at all")

    @staticmethod
    def a_burst(words):
        return "a burst of %s" % plural(int(words[WORDS]), "request")

    def of_word(self, words):
        flow, to = words[FLOW], words[TO]
        other = "" if self.goes_to.get(flow) == to else ", to node " + to
        return (f"flow {flow} asks for a slot: quantum {words[NUMBER]}, "
                f"departure {words[DEPARTURE]}{other}")

    @staticmethod
    def no_call(words):
        record = bytes.fromhex(words[1])
        return "%s no call: %s" % (
            plural(len(record), "byte that is", "bytes that are"),
            record.hex(" "))

    # ---- answers

    def place(self, slot):
        return place(slot, self.plan)

    @staticmethod
    def sent_ahead(pair):
        """What a credit and the lend before it let a tile do."""
        return "; with the lend before it the tile of slot %d may leave " \
            "ahead, in slot %d, if it came in an earlier one" % pair

    def lent(self, words):
        return "lent to flow %s: %s" % (words[VALUE], self.place(self.slot))

    def reset(self, words):
        return "done: every flow starts again in frame %d" % (
            self.slot // self.plan.frame_slots)

    def of_burst(self, words):
        """Before the answer to a word of a burst stands the word."""
        if words[REFUSAL] == UNTOUCHED:
            said = "not looked at, since a burst makes 16 requests at most"
        elif words[REFUSAL] == "0":
            said = "granted " + self.place(self.slot + int(words[AHEAD]))
        else:
            said = self.refused(words)
        return "%s: %s" % (self.of_word(words), said)

    def refused(self, words):
        """With what the line says of it besides, in brackets."""
        here = self.here(words)
        number, kind = refusal_of(words)
        key = number, kind, here
        if key not in self.refusals:
            self.refusals[key] = refused_with(
                number, kind, self.known, " (here %s)" % here if here else "")
        return self.refusals[key]

    def here(self, words):
        """Why a request is refused: what holds here of what the refusal's row
        says, or ""."""
        number, kind = refusal_of(words)
        if kind not in ("request", "word") or not self.plan.has(words[FLOW]):
            return ""
        flow = self.plan.flows[int(words[FLOW])]
        if number == 9:
            return "it goes to node %d" % flow.destination
        if number == 11:
            return "its share is %s to a frame" % plural(flow.share, "slot")
        if number == 12:
            return no_position(int(words[LAST]), flow.cells)
        if number == 24 and kind == "request":
            return "%s is expected" % words[EXPECTED]
        return ""


def refusal_of(words):
    """The refusal of a line, 0 for none, and what is refused."""
    if words[0] == "X":
        return NO_CALL, "none"
    number = 0 if words[REFUSAL] == UNTOUCHED else int(words[REFUSAL])
    return number, KINDS[words[KIND]]

"""The words of a line of a trace, by their places (rules 26.2 to 26.9), and
the plan of its first lines."""

from call_file import Flow

REFUSAL, VALUE = 1, 2           # the refusal, and what is answered
KIND, FLOW = 3, 4               # the call's kind, and its flow
NUMBER, DEPARTURE, TO = 5, 6, 7             # of a word
POSITION, MASK, CHANGE = 5, 4, 4            # of a credit, a lend, a tick
WORDS = 4                                   # of a burst
EXPECTED, AHEAD, OWNER, HELD, LAST = range(13, 18)      # of a flow
FLOW_LINE, FLOW_LAST = 1, 4                 # of a line F
REQUEST, CREDIT, LEND, RESET = "1", "2", "4", "5"       # kinds of calls
NOBODY = "16"
UNTOUCHED = "255"               # a burst's word past the sixteenth
NO_CALL = "16"                  # the refusal of bytes that are no call


class TracedPlan:
    """An accepted plan: the words of the line P, and of a line E a flow."""

    def __init__(self, first, entries):
        self.frame_slots, self.window_frames, self.buffer, _ = map(
            int, first[2:])
        self.positions = self.frame_slots * self.window_frames      # T
        self.flows = [Flow(number, *map(int, entry[1:]))
                      for number, entry in enumerate(entries)]

    def has(self, flow):
        """Whether a flow, a word of a line, is one of the plan's."""
        return int(flow) < len(self.flows)


def listing_line(words):
    """The line of the listing that a line stands for; None for a line F or W,
    which has none (rule 26.2)."""
    letter = words[0]
    if letter in "GL":
        return "%s %s" % (letter, words[VALUE])
    if letter == "T":
        return "T -" if words[VALUE] == NOBODY else "T " + words[VALUE]
    if letter == "R":
        return "R " + words[REFUSAL]
    if letter == "B":
        return "B %s %s" % (words[REFUSAL], words[VALUE])
    return {"C": "C", "Z": "Z", "X": "R " + NO_CALL}.get(letter)

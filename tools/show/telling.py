"""The lines of a trace in words, as they come.

Most calls are requests, credits and ticks.  Their sentences are put together
of pieces that are made once: what stands before a slot, the slot itself, when
the window reaches it, and what stands behind it, laid out by where it begins.
"""

from paragraphs import INDENT, laid_out, paragraph
from summary import Summary
from trace_words import (
    CHANGE, FLOW, HELD, KIND, NOBODY, REQUEST, VALUE, listing_line)
from words import Words, came_up, place, plan_words

GRANTED, TAKEN = "granted ", "  C     taken: from "
TICK = 11               # letters of a tick's line that tell its words so far


def numbered(call):
    """The number of a call, in front of its words."""
    number = str(call)
    return f"{BEFORE[len(number)]}{number}{BEHIND[len(number)]}"


BEFORE = [" " * (5 - digits) for digits in range(30)]
BEHIND = [" " * max(1, min(3, 8 - digits)) for digits in range(30)]


def answered(words, text):
    """The paragraph of an answer, behind its line of the listing."""
    answer = listing_line(words)
    if len(answer) > INDENT - 3:
        text = " " + text
    return paragraph("  " + answer, text)


def plan_page(plan):
    first, *flows = plan_words(plan)
    return paragraph("  P 0", first) + "".join(
        paragraph("", flow) for flow in flows)


# ---- pieces of sentences

class Places:
    """The slots of the window in words, from the head frame's first on."""

    def __init__(self, plan):
        self.plan = plan
        self.end = 0                    # one past the last
        self.texts = []
        self.go_on(plan.positions)

    def go_on(self, slots):
        self.texts += [place(slot, self.plan)
                       for slot in range(self.end, self.end + slots)]
        self.end += slots
        del self.texts[:-self.plan.positions]


class Made(dict):
    """Pieces by what they are made of, each made once."""

    def __init__(self, make):
        super().__init__()
        self.make = make

    def __missing__(self, key):
        made = self[key] = self.make(key)
        return made


def tails(letters):
    """Ends of lines that begin with so many letters, laid out.  A line is
    never cut before its end."""
    return Made(lambda tail: laid_out("-" * letters + tail)[letters:] + "\n")


# ---- a play in words

class Telling:
    """Says each call as its lines come, and writes it by `write`."""

    over = False

    def __init__(self, plan, write):
        self.write = write
        self.words = Words(plan)
        self.summary = Summary(plan)
        self.places = Places(plan)
        self.tails = [tails(letters) for letters in range(2 * INDENT + 200)]
        self.ticks = Made(self.tick_of)
        self.grants = Made(lambda position: ("  G " + position).ljust(INDENT)
                           + GRANTED)
        self.holds = {flow: Made(lambda held, cells=cells: "; there it holds "
                                 "%s of its %s" % (held, cells))
                      for flow, cells in self.words.cells.items()}
        self.less = Made(" on flow {} holds one less".format)
        self.refusals = {}              # paragraphs, by their sentences
        self.tells = dict.fromkeys(self.summary.takes, self.other)
        self.tells.update(T=self.tick, G=self.grant, C=self.credit,
                          R=self.refusal, F=self.flow)
        write(plan_page(plan) + "\n")

    @property
    def calls(self):
        return self.summary.calls

    @property
    def slot(self):
        return self.summary.slot

    def add(self, lines):
        tells = self.tells
        self.write("".join([tells[line[:1]](line) for line in lines]))

    # ---- what is said of a line

    @staticmethod
    def tick_of(begins):
        """Of a tick's line that begins so: its owner, whether the frame
        changes, and what stands before and behind its slot."""
        words = begins.split(" ")
        owner, change = words[VALUE], words[CHANGE]
        listed = "  T " + ("-" if owner == NOBODY else owner)
        return owner, change, listed.ljust(INDENT), came_up(change, owner)

    def tick(self, line):
        owner, change, head, tail = self.ticks[line[:TICK]]
        summary = self.summary
        summary.come_up(owner, change)
        if change == "1":
            self.places.go_on(self.words.plan.frame_slots)
        where = self.places.texts[summary.place]
        return (f"{numbered(summary.calls)}a tick\n{head}{where}"
                f"{self.tails[INDENT + len(where)][tail]}")

    def grant(self, line):
        words = line.split(" ")
        where = self.places.texts[self.summary.grant(words)]
        head = self.grants[words[VALUE]]
        tail = self.holds[words[FLOW]][words[HELD]]
        return (f"{numbered(self.summary.calls)}{self.words.of_word(words)}\n"
                f"{head}{where}{self.tails[len(head) + len(where)][tail]}")

    def credit(self, line):
        words = line.split(" ")
        where = self.places.texts[self.summary.credit(words)]
        tail = self.less[words[FLOW]]
        if self.summary.pair:           # of two slots, and never kept
            line = TAKEN + where + tail + self.words.sent_ahead(
                self.summary.pair)
            answer = laid_out(line) + "\n"
        else:
            answer = (f"{TAKEN}{where}"
                      f"{self.tails[len(TAKEN) + len(where)][tail]}")
        return (f"{numbered(self.summary.calls)}{self.words.of_credit(words)}"
                f"\n{answer}")

    def refusal(self, line):
        words = line.split(" ")
        self.summary.refuse(words)
        said = self.words.refused(words)
        if said not in self.refusals:
            self.refusals[said] = answered(words, said)
        if words[KIND] == REQUEST:
            return (f"{numbered(self.summary.calls)}"
                    f"{self.words.of_word(words)}\n{self.refusals[said]}")
        return paragraph(numbered(self.summary.calls),
                         self.words.of_refused_call(words)
                         ) + self.refusals[said]

    def flow(self, line):
        self.summary.go_on(line.split(" "))
        return ""

    def other(self, line):
        """A line's paragraphs: a burst has a call, and its words answers."""
        words = line.split(" ")
        self.summary.takes[words[0]](words)
        say, letter = self.words, words[0]
        say.slot = self.summary.slot
        if letter == "B":
            return answered(words, say.of_burst(words))
        called = paragraph(numbered(self.summary.calls),
                           say.calls[letter](words))
        return called if letter == "W" else called + answered(
            words, say.answers[letter](words))

"""Text to the bytes of a call file.  tools/calls --help has the lines."""

import struct

FLOWS, NUMBERS = 64, 1024       # that a word can name
MOST_TICKS = 1000000            # of one line
BURST_WORDS = 20
AFTER_PLAN = ("ask", "word", "credit", "tick", "bytes")
OF_ALLCALLS = ("lend", "reset", "burst")


class TextError(Exception):
    """What is wrong with a line."""


class Defaults:
    """What an ask has where its line doesn't say it, as the calls so far
    leave it."""

    def __init__(self, positions, destinations):
        self.positions = positions          # T
        self.destinations = destinations    # by flow
        self.ticks = 0
        self.asks = [0] * FLOWS             # by flow: those not marked again

    def departure(self):
        """The current position, or None where a word can't name it."""
        now = self.ticks % self.positions if self.positions else NUMBERS
        return now if now < NUMBERS else None

    def number(self, flow, again=False):
        """The next quantum number, or with `again` that of the ask before;
        None where there was none."""
        count = self.asks[flow] - again
        return count % NUMBERS if count >= 0 else None

    def destination(self, flow):
        """The plan's, or None where the plan has no such flow."""
        known = flow < len(self.destinations)
        return self.destinations[flow] if known else None

    def asked(self, flow, again):
        self.asks[flow] += not again


def plan_bytes(numbers, flows):
    """The bytes of F, W and N, and of share, cells, source and destination of
    each flow."""
    return struct.pack("<6H", 12 + 4 * len(flows), len(flows), 12,
                       *numbers) + b"".join(bytes(flow) for flow in flows)


def number_of(text, most, name):
    try:
        number = int(text, 16 if text.lower().startswith("0x") else 10)
    except ValueError:
        number = -1
    if not 0 <= number <= most or not text.isalnum() or not text.isascii():
        raise TextError("%s has to be a number from 0 to %d, not '%s'"
                        % (name, most, text))
    return number


def fields_of(words, limits, needed=()):
    """The numbers of words like share=2, by their names."""
    fields = {}
    for word in words:
        name, sign, text = word.partition("=")
        if not sign or name not in limits:
            raise TextError("'%s' is none of %s" % (
                word, ", ".join(limit + "=" for limit in limits)))
        if name in fields:
            raise TextError("%s= stands there twice" % name)
        fields[name] = number_of(text or "nothing", limits[name], name)
    for name in needed:
        if name not in fields:
            raise TextError("%s= is missing" % name)
    return fields


class TextReader:
    """A text while it is read, line by line."""

    def __init__(self, all_calls):
        self.all_calls = all_calls
        self.lines = 0              # that are read
        self.numbers = None         # the plan's F, W and N
        self.flows = []             # share, cells, source, destination
        self.pieces = []            # bytes that are not taken; the plan's
        self.size = 0               # with the first call; how many
        self.defaults = None        # from the first call on
        self.to_come = 0            # words of a burst that are still to come

    def put(self, data):
        self.pieces.append(data)
        self.size += len(data)

    def taken(self):
        """The bytes so far that were not taken before."""
        data = b"".join(self.pieces)
        self.pieces, self.size = [], 0
        return data

    def data(self):
        """The bytes of all lines that were not taken before."""
        if self.to_come:
            raise TextError("the text ends, and the burst before lacks %d of "
                            "its words" % self.to_come)
        if self.defaults is None and self.numbers is not None:
            self.put(plan_bytes(self.numbers, self.flows))
        return self.taken()

    def read_next(self, line):
        """Reads the next line; a TextError names it."""
        self.lines += 1
        try:
            self.read(line)
        except TextError as wrong:
            raise TextError("line %d: %s" % (self.lines, wrong)) from None

    def read(self, line):
        words = line.partition("#")[0].split()
        if not words:
            return
        name = words[0]
        if self.to_come and name not in ("ask", "word"):
            raise TextError("the burst before lacks %d of its words, each an "
                            "ask or a word" % self.to_come)
        if name in AFTER_PLAN or name in OF_ALLCALLS:
            self.begin_calls(name)
        elif name not in ("plan", "flow"):
            raise TextError("'%s' is none of plan, flow, %s" % (
                name, ", ".join(AFTER_PLAN + OF_ALLCALLS)))
        getattr(self, name)(words[1:])

    def begin_calls(self, name):
        """The plan is whole with the first call."""
        if name in OF_ALLCALLS and not self.all_calls:
            raise TextError("%s is a call for the program allcalls: it needs "
                            "the option --allcalls" % name)
        if self.numbers is None and name != "bytes":
            raise TextError("the first line has to be a plan, as in plan F=4 "
                            "W=2 N=4")
        if self.defaults is None:
            if self.numbers is not None:
                self.put(plan_bytes(self.numbers, self.flows))
            frame, window, _ = self.numbers or (0, 0, 0)
            self.defaults = Defaults(frame * window,
                                     [flow[3] for flow in self.flows])

    # ---- the plan

    def plan(self, words):
        if self.numbers is not None or self.defaults is not None:
            raise TextError("a plan stands once, in front of all others")
        fields = fields_of(words, dict.fromkeys("FWN", 65535), "FWN")
        self.numbers = [fields[name] for name in "FWN"]

    def flow(self, words):
        if self.numbers is None or self.defaults is not None:
            raise TextError("a flow stands behind the plan, before the first "
                            "call")
        names = ("share", "cells", "from", "to")
        fields = fields_of(words, dict.fromkeys(names, 255), names)
        self.flows.append([fields[name] for name in names])

    # ---- calls

    def ask(self, words):
        if not words:
            raise TextError("an ask names its flow, as in ask 0")
        flow = number_of(words[0], FLOWS - 1, "the flow")
        again = "again" in words[1:]
        fields = fields_of([word for word in words[1:] if word != "again"],
                           {"number": NUMBERS - 1, "departure": NUMBERS - 1,
                            "to": 63})
        number = self.chosen(fields, "number",
                             self.defaults.number(flow, again),
                             "flow %d has asked for nothing so far" % flow)
        departure = self.chosen(fields, "departure",
                                self.defaults.departure(),
                                "no word can name the current position")
        to = self.chosen(fields, "to", self.defaults.destination(flow),
                         "the plan has no flow %d" % flow)
        if to > 63:
            raise TextError("flow %d goes to node %d, which no word can name: "
                            "to= has to be given" % (flow, to))
        self.defaults.asked(flow, again)
        self.write_word(to << 26 | flow << 20 | number << 10 | departure)

    @staticmethod
    def chosen(fields, name, default, without):
        value = fields.get(name, default)
        if value is None:
            raise TextError("%s: %s= has to be given" % (without, name))
        return value

    def word(self, words):
        if len(words) != 1:
            raise TextError("a word is one number, as in word 0x24000000")
        self.write_word(number_of(words[0], 2 ** 32 - 1, "the word"))

    def write_word(self, value):
        """A request, or a burst's next word."""
        if self.to_come:
            self.to_come -= 1
            self.put(struct.pack("<I", value))
        else:
            self.put(struct.pack("<BI", 1, value))

    def credit(self, words):
        if len(words) != 2:
            raise TextError("a credit names a flow and a position, as in "
                            "credit 0 4")
        self.put(struct.pack(
            "<BBHB", 2, number_of(words[0], 255, "the flow"),
            number_of(words[1], 65535, "the position"), 0))

    def tick(self, words):
        try:
            count = number_of(words[0], MOST_TICKS, "the count") if words else 1
        except TextError:
            count = 0
        if len(words) > 1 or not count:
            raise TextError("a tick takes at most how many there are, from 1 "
                            "to %d, as in tick 5" % MOST_TICKS)
        self.defaults.ticks += count
        self.put(bytes([3, 0, 0, 0, 0]) * count)

    def bytes(self, words):
        if not words or any(len(word) != 2 for word in words):
            raise TextError("bytes are pairs of hexadecimal digits, as in "
                            "bytes 01 FF")
        self.put(bytes(number_of("0x" + word, 255, "a byte")
                                 for word in words))

    # ---- calls of allcalls

    def lend(self, words):
        flows = {number_of(word, 15, "the flow") for word in words}
        self.put(struct.pack("<BHH", 4,
                                       sum(1 << flow for flow in flows), 0))

    def reset(self, words):
        if words:
            raise TextError("a reset stands alone")
        self.put(bytes([5, 0, 0, 0, 0]))

    def burst(self, words):
        if len(words) != 1:
            raise TextError("a burst says how many words follow, as in "
                            "burst 2")
        self.to_come = number_of(words[0], BURST_WORDS, "the count")
        self.put(bytes([6, self.to_come, 0, 0, 0]))


def is_text(data):
    """Whether the first word of a file, comments aside, is `plan`."""
    for line in data.split(b"\n"):
        words = line.partition(b"#")[0].split()
        if words:
            return words[0] == b"plan"
    return False


def bytes_of(text, all_calls=False):
    """The bytes of a text; a TextError names the line."""
    reader = TextReader(all_calls)
    for line in text.split("\n"):
        reader.read_next(line)
    return reader.data()

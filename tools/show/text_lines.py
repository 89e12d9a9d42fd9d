"""The bytes of a call file to text, whose bytes are the same again."""

import call_file
from call_text import MOST_TICKS, Defaults, plan_bytes

BYTES_A_LINE = 16


class TextWriter:
    """A text while it is written, call by call."""

    def __init__(self, plan):
        self.lines = ["plan F=%d W=%d N=%d" % (
            plan.frame_slots, plan.window_frames, plan.buffer)]
        self.lines += ["flow share=%d cells=%d from=%d to=%d  # flow %d" % (
            flow.share, flow.cells, flow.source, flow.destination,
            flow.number) for flow in plan.flows]
        self.defaults = Defaults(
            plan.positions, [flow.destination for flow in plan.flows])
        self.ticks = 0              # in a row, not yet written

    def write(self, call):
        if call.kind == "tick":
            self.ticks += 1
            return
        self.end_ticks()
        getattr(self, call.kind)(call)

    def end_ticks(self):
        self.defaults.ticks += self.ticks
        while self.ticks:
            count = min(self.ticks, MOST_TICKS)
            self.lines.append("tick" if count == 1 else "tick %d" % count)
            self.ticks -= count

    def taken(self):
        """The lines that were not taken before, as a text."""
        text = "".join([line + "\n" for line in self.lines])
        self.lines = []
        return text

    def ask(self, word):
        """An ask, which says only what it would not have without it."""
        flow, said = word.flow, ["ask %d" % word.flow]
        again = (word.quantum != self.defaults.number(flow)
                 and word.quantum == self.defaults.number(flow, True))
        if again:
            said.append("again")
        elif word.quantum != self.defaults.number(flow):
            said.append("number=%d" % word.quantum)
        if word.departure != self.defaults.departure():
            said.append("departure=%d" % word.departure)
        if word.destination != self.defaults.destination(flow):
            said.append("to=%d" % word.destination)
        self.defaults.asked(flow, again)
        return " ".join(said)

    def request(self, call):
        self.lines.append(self.ask(call.word))

    def credit(self, call):
        self.lines.append("credit %d %d" % (call.flow, call.position))

    def lend(self, call):
        self.lines.append(" ".join(["lend"] + [
            str(flow) for flow in range(16) if call.mask >> flow & 1]))

    def reset(self, call):
        self.lines.append("reset")

    def burst(self, call):
        self.lines.append("burst %d" % len(call.words))
        self.lines += ["  " + self.ask(word) for word in call.words]

    def none(self, call):
        self.lines += lines_of_bytes(call.record).splitlines()


def lines_of_bytes(data):
    return "".join(["bytes %s\n" % data[place:place + BYTES_A_LINE].hex(" ")
                    for place in range(0, len(data), BYTES_A_LINE)])


def plain_plan(plan):
    """Whether the plan's bytes are those that its numbers make."""
    return plan.data == plan_bytes(
        (plan.frame_slots, plan.window_frames, plan.buffer),
        [(flow.share, flow.cells, flow.source, flow.destination)
         for flow in plan.flows])


class BytesWriter:
    """Lines of bytes, of a call file that begins with no plan, or with one
    whose counts are wrong: a program reads nothing behind it."""

    calls = 0

    def __init__(self):
        self.rest = b""

    def write(self, data):
        data = self.rest + data
        whole = len(data) - len(data) % BYTES_A_LINE
        self.rest = data[whole:]
        return lines_of_bytes(data[:whole])

    def end(self):
        return lines_of_bytes(self.rest)


class CallsWriter:
    """The text of a call file that begins with a good plan."""

    def __init__(self, plan, all_calls):
        self.text = TextWriter(plan)
        self.kinds = (call_file.ALLCALLS if all_calls
                      else call_file.DOMELINK)
        self.skip = len(plan.data)      # bytes of the plan that are to come
        self.rest = b""
        self.calls = 0

    def write(self, data):
        self.rest += data[self.skip:]
        self.skip = max(0, self.skip - len(data))
        start = 0
        for record in call_file.whole_records(self.rest, self.kinds):
            start += len(record)
            self.put(record)
        self.rest = self.rest[start:]
        return self.text.taken()

    def put(self, record):
        self.calls += 1
        self.text.write(call_file.call_of(record, self.kinds))

    def end(self):
        if self.rest:
            self.put(self.rest)
        self.text.end_ticks()
        return self.text.taken()


def writer_for(begun, all_calls=False):
    """What makes text of a call file, by its first bytes."""
    try:
        plan = call_file.Plan(call_file.split(begun)[0])
    except call_file.NoPlan:
        return BytesWriter()
    return CallsWriter(plan, all_calls) if plain_plan(plan) else BytesWriter()


def text_of(data, all_calls=False):
    """The text of a call file."""
    writer = writer_for(data, all_calls)
    return writer.write(data) + writer.end()

"""A plan as text: a line for F, W and N, and one for each flow.  All faults of
its lines are found at once."""

from dome.show_file import NAME, numbers_in, quoted
from plan.plans import FIELDS, Flow, Plan

MOST_BYTES = 65536
SHORT = 1997            # bytes of a text that may have no line of a plan
BLANKS = b"\t\n\r"
MARK = b"\xef\xbb\xbf"
FRAME = ("F", "W", "N")
AS_IN = "as in plan F=4 W=2 N=4"


class Reader:
    """Takes the lines one by one, and keeps the plan and what is wrong: pairs
    of a line, 0 for the whole text, and a sentence."""

    def __init__(self):
        self.frame = None               # F, W and N by name
        self.line = 0                   # that has them
        self.flows = []
        self.names = {}                 # the line of each
        self.faults = []

    def take(self, line, text):
        words = text.partition("#")[0].split()
        if not words:
            return
        if words[0] == "plan":
            self.take_plan(line, words[1:])
        elif words[0] == "flow":
            self.take_flow(line, words[1:])
        else:
            self.faults.append((line, "a line begins with plan or flow, and "
                                "this one with %s" % quoted(words[0])))

    def take_plan(self, line, words):
        if self.line:
            self.faults.append((line, "the plan's F, W and N stand on line %d "
                                "already" % self.line))
            return
        self.line = line
        self.frame = numbers_in(words, FRAME, (), self.say_of(line))

    def take_flow(self, line, words):
        name = None
        if words and "=" not in words[0]:
            name = self.named(line, words.pop(0))
        numbers = numbers_in(words, FIELDS, (), self.say_of(line))
        if numbers:
            self.flows.append(Flow(*(numbers[field] for field in FIELDS),
                                   name, line))

    def named(self, line, name):
        if not NAME.match(name) or not name[0].isalpha():
            self.faults.append((line, "a name begins with a letter and has "
                                "letters, digits, - and _, and this is %s"
                                % quoted(name)))
        elif name in self.names:
            self.faults.append((line, "the name %s stands on line %d already"
                                % (name, self.names[name])))
        else:
            self.names[name] = line
        return name

    def say_of(self, line):
        return lambda text: self.faults.append((line, text))

    def plan(self):
        """The plan of what could be read, or None."""
        if not self.frame:
            return None
        return Plan(*(self.frame[field] for field in FRAME), self.flows,
                    self.line)


def lines_of(data):
    """Each line's number and text, None for one that is no text.  A mark that
    some editors put in front is left out."""
    data = data[len(MARK):] if data.startswith(MARK) else data
    for number, raw in enumerate(data.split(b"\n"), 1):
        try:
            yield number, raw.decode("utf-8")
        except UnicodeDecodeError:
            yield number, None


def is_printable(data):
    """Whether no byte is one that no text has; a plan file has a byte 0."""
    return not any(byte < 32 and byte not in BLANKS for byte in data)


def is_text(data):
    """Whether bytes are meant as a text; where it is long it has a line of a
    plan."""
    if not data or not is_printable(data):
        return False
    return len(data) <= SHORT or any(
        line.split()[:1] in ([b"plan"], [b"flow"])
        for line in data.split(b"\n"))


def read(data):
    """What could be read of a text's bytes."""
    reader = Reader()
    for number, text in lines_of(data):
        if text is None:
            reader.faults.append((number, "it is no text"))
        else:
            reader.take(number, text)
    if not reader.line:
        reader.faults.append((0, "it has no line that begins with plan, "
                              + AS_IN))
    return reader


def written(plan):
    """The text of a plan."""
    lines = ["plan F=%d W=%d N=%d" % (plan.frame_slots, plan.window_frames,
                                      plan.buffer)]
    for number, flow in enumerate(plan.flows):
        name = "flow %s " % flow.name if flow.name else "flow "
        lines.append("%sshare=%d cells=%d from=%d to=%d%s" % (
            name, *flow.numbers(), "" if flow.name else "  # flow %d"
            % number))
    return "".join(line + "\n" for line in lines)

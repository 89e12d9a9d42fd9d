"""The links of a dome, each a domelink that plays its plan, or a dometrace
where slots are lent.  Calls are kept until an answer is needed, and then
written at once."""

import os
import subprocess

from dome.proved import BIN, Broken

TICK = b"\x03\0\0\0\0"
ENOUGH = 4000           # records that are kept at most: a pipe takes them
NOBODY = b"16"          # no owner, in a trace
MORE = (b"E", b"F")     # lines of a trace that answer no call


def as_listed(line):
    """A line of a trace as domelink's listing has it."""
    letter, refusal, value = line.split(b" ", 3)[:3]
    if letter in (b"R", b"P"):
        return letter + b" " + refusal
    if letter == b"C":
        return letter
    if letter == b"T" and value == NOBODY:
        return b"T -"
    return letter + b" " + value


class Link:
    """A link after `ticks` ticks; `booked` has the flow of each slot that is
    to come up, by which each tick's answer is compared."""

    def __init__(self, plan, lends=False):
        self.plan = plan
        self.slots = plan[6] + 256 * plan[7]
        self.positions = self.slots * (plan[8] + 256 * plan[9])
        self.traced = lends
        self.program = subprocess.Popen(
            [str(BIN / "dometrace"), "all"] if lends else
            [str(BIN / "domelink")], stdin=subprocess.PIPE,
            stdout=subprocess.PIPE, bufsize=0, start_new_session=True)
        self.into = self.program.stdin.fileno()
        self.out = self.program.stdout.fileno()
        self.ticks = 0
        self.booked = {}
        self.kept = [plan]
        self.asked = ["P"]      # what each line that is to come answers
        self.lines = []         # that have come, and are not looked at yet
        self.rest = b""         # of a line that has not come whole
        self.read_on(self.flush())

    def advance(self, slot):
        """Ticks up to a slot."""
        while self.ticks < slot:
            self.ticks += 1
            self.kept.append(TICK)
            self.asked.append(self.ticks)
            if len(self.kept) >= ENOUGH:
                self.read_on(self.flush())

    def credit(self, flow, slot):
        position = slot % self.positions
        self.kept.append(bytes((2, flow, position & 255, position >> 8, 0)))
        self.asked.append("C")

    def request(self, flow, destination, number):
        """Asks for a slot for a tile that has come."""
        word = (destination << 26 | flow << 20 | number << 10
                | self.ticks % self.positions)
        self.kept.append(b"\x01" + word.to_bytes(4, "little"))
        self.asked.append("G")

    def lend(self, flows):
        """Offers the current slot to these flows."""
        mask = sum(1 << flow for flow in flows)
        self.kept.append(bytes((4, mask & 255, mask >> 8, 0, 0)))
        self.asked.append("L")

    def flush(self):
        """Writes what is kept; how many lines are to come."""
        count = len(self.kept)
        data = b"".join(self.kept)
        self.kept = []
        while data:
            data = data[os.write(self.into, data):]
        return count

    def more_lines(self):
        """The lines of the next piece that comes."""
        piece = os.read(self.out, 65536)
        if not piece:
            raise Broken("%s ended early" % (
                "dometrace" if self.traced else "domelink"))
        *lines, self.rest = (self.rest + piece).split(b"\n")
        if self.traced:
            return [as_listed(line) for line in lines if line[:1] not in MORE]
        return lines

    def read_on(self, count):
        """Reads so many lines: what is answered to the requests and lends
        among them, None for one that is refused."""
        while len(self.lines) < count:
            self.lines += self.more_lines()
        lines, self.lines = self.lines[:count], self.lines[count:]
        asked, self.asked = self.asked[:count], self.asked[count:]
        return [found for found in map(self.answered, asked, lines)
                if found is not False]

    def answered(self, asked, line):
        """The slot of a grant, the flow of a lend, None for either that is
        refused; False for any other call."""
        if asked in ("G", "L"):
            if line[:1] == b"R":
                return None
            if asked == "L":
                return int(line[2:])
            ahead = (int(line[2:]) - self.ticks) % self.positions
            return self.ticks + (ahead or self.positions)
        if isinstance(asked, int):
            flow = self.booked.pop(asked, None)
            expected = b"T -" if flow is None else b"T %d" % flow
        else:
            expected = b"P 0" if asked == "P" else b"C"
        if line != expected:
            raise Broken("a link answered %r where %r was booked" % (
                line, expected))
        return False

    def close(self):
        self.program.stdin.close()
        self.program.stdout.close()
        self.program.wait()

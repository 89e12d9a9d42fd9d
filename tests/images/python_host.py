"""host.c's commands, made by the wrapper for Python.  A call on bytes that are
no image has the refusal that they are turned away with."""

import struct
import sys
from pathlib import Path

sys.dont_write_bytecode = True
sys.path.insert(0, str(Path(__file__).resolve().parents[2]
                       / "bindings/python"))

from nazgolv import Link, Refused       # noqa: E402

FORMS = {b"r": "<I", b"c": "<QQ", b"t": "<", b"l": "<H", b"z": "<",
         b"s": "<BQQ"}
SEEN = {0: lambda link, flow, position: link.current(),
        11: lambda link, flow, position: link.number(flow),
        12: lambda link, flow, position: 16 if link.owner(position) is None
        else link.owner(position),
        13: lambda link, flow, position: link.held(flow, position)}


def see(link, which, flow, position):
    found = SEEN[which](link, flow, position)
    return 0xFFFFFFFF if found is None else found


def tick(link):
    flow = link.tick()
    return 16 if flow is None else flow


CALLS = {
    b"r": lambda link, word: word & ~1023 | link.request(word),
    b"c": lambda link, flow, position: link.credit(flow, position) or 0,
    b"t": tick, b"l": Link.lend, b"z": lambda link: link.reset() or 0,
    b"s": see,
}


class Host:
    def __init__(self, commands):
        self.commands = commands
        self.at = 0
        self.buffer = b""

    def take(self, form):
        self.at += struct.calcsize(form)
        return struct.unpack_from(form, self.commands,
                                  self.at - struct.calcsize(form))

    def bytes(self):
        return self.take("%ds" % self.take("<I")[0])[0]

    def call(self, letter):
        if letter == b"f":
            image = Link.fresh(self.bytes()).image
            self.buffer = image + self.buffer[len(image):]
            return 0
        numbers = self.take(FORMS[letter])
        link = Link(self.buffer)
        try:
            return CALLS[letter](link, *numbers)
        finally:
            self.buffer = link.image

    def check(self):
        try:
            Link(self.buffer)
            return 0
        except Refused as refused:
            return refused.number

    def play(self):
        """A play's result, and its second buffer, in which there has to be
        room."""
        records, out, played = self.bytes(), self.bytes(), 0
        try:
            link = Link(self.buffer)
            results = b"".join(
                struct.pack("<Q", result.number << 32
                            if isinstance(result, Refused) else result)
                for result in link.play(records))
            out = results + out[len(results):]
            self.buffer = link.image
        except Refused as refused:
            played = refused.number << 32
        return struct.pack("<QI", played, len(out)) + out

    def answer(self, letter):
        """What a command has to write."""
        if letter == b"p":
            return self.play()
        if letter == b"k":
            return struct.pack("<Q", self.check())
        if letter == b"b":
            self.buffer = self.bytes()
            return b""
        if letter == b"g":
            return struct.pack("<I", len(self.buffer)) + self.buffer
        try:
            return struct.pack("<Q", self.call(letter))
        except Refused as refused:
            return struct.pack("<Q", refused.number << 32)

    def run(self):
        while self.at < len(self.commands):
            yield self.answer(self.take("c")[0])


if __name__ == "__main__":
    sys.stdout.buffer.write(b"".join(Host(sys.stdin.buffer.read()).run()))

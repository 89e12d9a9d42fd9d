"""A host: what it is told to do, and what came of it.  host.c says the
commands; host.rs and python_host.py take the same, through the wrappers.
"""

import struct
import subprocess

from driver.starting import LIMIT, NO_END

CALLS = {
    "request": lambda word: b"r" + struct.pack("<I", word),
    "credit": lambda flow, position: b"c" + struct.pack("<QQ", flow, position),
    "tick": lambda: b"t",
    "lend": lambda mask: b"l" + struct.pack("<H", mask),
    "reset": lambda: b"z",
}
# What can be seen in an image, and of what: nothing, a flow, a position, both.
ALONE, FLOW, POSITION, BOTH = "", "f", "p", "fp"
SEEN = {
    "current": ALONE, "frame slots": ALONE, "window frames": ALONE,
    "buffer cells": ALONE, "flows": ALONE,
    "share": FLOW, "cells": FLOW, "source": FLOW, "destination": FLOW,
    "injection frame": FLOW, "remainder": FLOW, "number": FLOW,
    "owner": POSITION, "held": BOTH,
}
RESULT, BUFFER = "result", "buffer"


def with_length(data):
    return struct.pack("<I", len(data)) + data


class Script:
    """Commands, and what each of them has the host write."""

    def __init__(self):
        self.commands = []
        self.written = []

    def buffer(self, data):
        self.commands.append(b"b" + with_length(data))

    def fresh(self, plan):
        self.commands.append(b"f" + with_length(plan))
        self.written.append(RESULT)

    def call(self, call):
        """A call by its name and arguments, as the simulator has it."""
        name, *arguments = call
        self.commands.append(CALLS[name](*arguments))
        self.written.append(RESULT)

    def see(self, name, flow=0, position=0):
        self.commands.append(b"s" + struct.pack(
            "<BQQ", list(SEEN).index(name), flow, position))
        self.written.append(RESULT)

    def check(self):
        self.commands.append(b"k")
        self.written.append(RESULT)

    def play(self, records, out):
        """The result, and then what it leaves in `out`."""
        self.commands.append(b"p" + with_length(records) + with_length(out))
        self.written += [RESULT, BUFFER]

    def get(self):
        self.commands.append(b"g")
        self.written.append(BUFFER)


def taken_apart(script, output):
    """What each command wrote: a result, or a buffer's bytes."""
    at = 0
    for kind in script.written:
        if kind == RESULT:
            yield struct.unpack_from("<Q", output, at)[0]
            at += 8
        else:
            length = struct.unpack_from("<I", output, at)[0]
            yield output[at + 4:at + 4 + length]
            at += 4 + length


def run(command, script):
    """What each command wrote, and None; or nothing, and what went wrong."""
    try:
        done = subprocess.run(command, input=b"".join(script.commands),
                              capture_output=True, timeout=LIMIT)
    except subprocess.TimeoutExpired:
        return [], NO_END
    if done.returncode or done.stderr:
        return [], "status %d: %s" % (done.returncode,
                                      done.stderr[-300:].decode("latin-1"))
    try:
        return list(taken_apart(script, done.stdout)), None
    except struct.error:
        return [], "its output is cut off"

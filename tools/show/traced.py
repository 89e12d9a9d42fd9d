"""The lines that dometrace writes of a call file, as they come: the file is
handed on in pieces, and never kept."""

import os
import stat
import subprocess
import threading

from call_stream import PIECE, begin, is_a_text, pieces_of, pieces_of_text
from call_text import TextError
from trace_words import TracedPlan


class Trouble(Exception):
    """Nothing can be traced, or the lines broke off: an exit status, and a
    sentence."""

    def __init__(self, status, text):
        super().__init__(text)
        self.status = status


class RefusedPlan(Exception):
    """The plan is refused with a number."""

    def __init__(self, number):
        super().__init__("the plan is refused with %d" % number)
        self.number = number


def can_be_reread(source):
    """Whether a file descriptor is a file's, so that its beginning can be read
    again."""
    return stat.S_ISREG(os.fstat(source).st_mode)


def calls_of(source, all_calls, name):
    """The call file that stands at a file descriptor, itself or as a text: its
    pieces, or None where the program can read it from the descriptor."""
    try:
        begun = begin(source)
        if is_a_text(begun):
            return pieces_of_text(begun, source, all_calls)
        if can_be_reread(source):
            os.lseek(source, -len(begun), os.SEEK_CUR)
            return None
        return pieces_of(begun, source)
    except TextError as wrong:
        raise Trouble(2, "%s, %s" % (name, wrong)) from None
    except OSError as wrong:
        raise Trouble(2, "%s can't be read, or its call file kept: %s" % (
            name, wrong.strerror)) from None


class HandingOn(threading.Thread):
    """Copies pieces to the program, until one of the two ends."""

    def __init__(self, pieces, target):
        super().__init__(daemon=True)
        self.pieces, self.target = pieces, target
        self.lost = None        # why no more could be read

    def run(self):
        try:
            for piece in self.readable():
                self.target.write(piece)
            self.target.close()
        except (OSError, ValueError):
            pass                # the program has read enough

    def readable(self):
        """The pieces, up to one that can't be read."""
        try:
            yield from self.pieces
        except OSError as wrong:
            self.lost = wrong.strerror


# ---- the program

class Traced:
    """A program that traces what stands at a file descriptor."""

    def __init__(self, program, source, all_calls, name):
        pieces = calls_of(source, all_calls, name)
        self.name = name
        self.process = subprocess.Popen(
            [program, *["--allcalls"] * all_calls],
            stdin=source if pieces is None else subprocess.PIPE,
            stdout=subprocess.PIPE, stderr=subprocess.PIPE, bufsize=0)
        self.lines = []         # read, and not handed out
        self.rest = ""          # of a line that is not whole
        self.handing_on = pieces and HandingOn(pieces, self.process.stdin)
        if self.handing_on:
            self.handing_on.start()

    def read(self):
        """Reads once; whether something has come."""
        piece = self.process.stdout.read(PIECE).decode("ascii", "replace")
        self.lines += (self.rest + piece).split("\n")
        self.rest = self.lines.pop()
        if not piece and self.rest:
            self.lines.append(self.rest)        # it broke off
            self.rest = ""
        return bool(piece)

    def line(self):
        """The words of a line on the plan."""
        while not self.lines:
            if not self.read() and not self.lines:
                self.end()
                raise Trouble(3, "dometrace broke off: it says nothing")
        return self.lines.pop(0).split()

    def plan(self):
        """The plan, from the first lines."""
        try:
            first = self.line()
            if first[1] != "0":
                self.is_whole()
                raise RefusedPlan(int(first[1]))
            return TracedPlan(first, [self.line()
                                      for _ in range(int(first[5]))])
        except (LookupError, ValueError, TypeError):
            self.end()
            raise Trouble(3, "after call 0 dometrace writes a line that is "
                          "none of a trace") from None

    def pieces(self):
        """Lists of the lines after the plan, as they come."""
        more = True
        while more or self.lines:
            lines, self.lines = self.lines, []
            yield lines
            more = self.read()

    def end(self):
        """Waits for the program, whose lines are read; they may have broken
        off."""
        said = self.process.stderr.read().decode(errors="replace").strip()
        if self.process.wait() or said:
            raise Trouble(3, said or "dometrace broke off: the trace is not "
                          "whole")
        self.is_whole()

    def is_whole(self):
        """Ends where the input could not be read to its end."""
        if self.handing_on and self.handing_on.lost:
            raise Trouble(3, "%s can't be read to its end: %s" % (
                self.name, self.handing_on.lost))

    def leave(self):
        """Reads no more."""
        self.process.kill()
        self.process.wait()

"""A line on standard error that says how far the work is.  It is written where
standard error is a terminal, and nowhere else."""

import os
import subprocess
import sys
import time

BETWEEN = 0.1           # seconds from one writing of the line to the next
COLUMNS = 80            # where the terminal doesn't say how many it has
SECOND = 1.0


def columns(stream):
    try:
        return os.get_terminal_size(stream.fileno()).columns or COLUMNS
    except OSError:
        return COLUMNS


class Line:
    def __init__(self, stream):
        self.stream = stream
        self.on = stream is not None and stream.isatty()
        self.width = 0              # of the text that stands there

    def show(self, text):
        """Writes a text over the one that stands there."""
        if self.on:
            text = text[:columns(self.stream) - 1]
            self.stream.write("\r" + text.ljust(self.width))
            self.stream.flush()
            self.width = len(text)

    def clear(self):
        """Leaves the line empty, for what is printed next."""
        if self.on and self.width:
            self.stream.write("\r" + " " * self.width + "\r")
            self.stream.flush()
            self.width = 0


line = Line(sys.stderr)


def counting(sort, things, total):
    """The things, with a line that says how many are done, written again
    where the last writing is long enough ago."""
    end = " so far" if total is None else " of %d" % total
    line.show("%s: 0%s" % (sort, end))
    due = time.monotonic() + BETWEEN
    try:
        for done, thing in enumerate(things, 1):
            yield thing
            if time.monotonic() >= due:
                line.show("%s: %d%s" % (sort, done, end))
                due = time.monotonic() + BETWEEN
    finally:
        line.clear()


def counted(sort, things, total=None):
    """The things as they come, which the line counts."""
    return counting(sort, things, total) if line.on else things


def ended(started, text):
    """What a process writes; the line counts the seconds up to its end."""
    begun = time.monotonic()
    while True:
        line.show("%s: %d s" % (text, time.monotonic() - begun))
        try:
            return started.communicate(timeout=SECOND if line.on else None)
        except subprocess.TimeoutExpired:
            pass


def run(text, words, **options):
    """subprocess.run with output as text, and a line that counts seconds."""
    with subprocess.Popen(words, encoding="utf-8", errors="replace",
                          **options) as started:
        try:
            output, errors = ended(started, text)
        except BaseException:       # as subprocess.run does
            started.kill()
            raise
        finally:
            line.clear()
    return subprocess.CompletedProcess(words, started.returncode, output,
                                       errors)

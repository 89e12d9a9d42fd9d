"""A trace followed by a reader, line by line: a line counts on a terminal, and
a break says how far it came."""

import signal
import sys
import threading

from ends import stop
from refusals import refusal, rows
from traced import RefusedPlan, Traced, Trouble

EVERY = 0.25                    # seconds, a line that counts is written


class CountingLine(threading.Thread):
    """Counts on standard error, where that is a terminal and nothing else goes
    there, until it ends."""

    def __init__(self, said):
        super().__init__(daemon=True)
        self.said = said                # what is counted, in words
        self.over = threading.Event()
        self.shown = bool(sys.stderr) and sys.stderr.isatty()

    def run(self):
        while self.shown and not self.over.wait(EVERY):
            print("\r%s " % self.said(), end="", file=sys.stderr, flush=True)

    def end(self):
        if self.over.is_set():
            return
        self.over.set()
        self.join()
        if self.shown:
            print("\r%60s\r" % "", end="", file=sys.stderr, flush=True)


def say_refusal(name, number):
    """Ends as ./play does for a plan that is refused."""
    row = refusal(number, "plan", rows())
    more = ""
    if number == 1:
        more = "; a file of calls begins with the bytes of a plan, as " \
            "flights/dense does; tools/calls makes such a file of a text"
    stop("play", 1, "%s is refused with %d: %s\nplay: what to do: %s%s" % (
        name, number, row.when, row.what_to_do, more))


def read_to_the_end(traced, reader):
    """Every line, or as many as the reader wants."""
    for lines in traced.pieces():
        reader.add(lines)
        if reader.over:
            traced.leave()
            return
    traced.end()


def read(traced, reader, quiet=False):
    """The reader, when it has read the trace.  A reader counts its calls and
    has the current slot, takes lists of lines, and says when it is over."""
    line = CountingLine(lambda: "play: call %d, slot %d" % (
        reader.calls, reader.slot))
    line.shown = line.shown and not quiet
    line.start()
    try:
        read_to_the_end(traced, reader)
    except KeyboardInterrupt:
        line.end()              # before the sentence
        stop("play", 3, "broken off after call %d, in slot %d" % (
            reader.calls, reader.slot))
    except (LookupError, ValueError):
        traced.end()
        raise Trouble(3, "after call %d dometrace writes a line that is none "
                      "of a trace" % reader.calls) from None
    finally:
        line.end()
    return reader


def follow(program, name, all_calls, make, refused=say_refusal, quiet=False):
    """Traces standard input, and gives the reader that is made of its plan
    when it has read all; ends with a sentence where that can't be, and by
    `refused` for a plan that is."""
    signal.signal(signal.SIGINT, signal.default_int_handler)
    try:
        traced = Traced(program, 0, all_calls, name)
        return read(traced, make(traced.plan()), quiet)
    except RefusedPlan as plan:
        refused(name, plan.number)
    except Trouble as trouble:
        stop("play", trouble.status, trouble)
    except KeyboardInterrupt:
        stop("play", 3, "broken off at the plan")

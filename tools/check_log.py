"""Compares the slots that a listing of domelink books with the streams that
left.  ./check-log --help says how both are written; the folder check/ has what
is compared."""

import itertools
import json
import os
import sys

from check.ahead import Sending, WINDOW
from check.booked import Booked
from check.calls import Calls
from check.ends import ENDED
from check.files import MORE, Trouble, shown
from check.report import NOT_COMPARED, Report
from check.sent import NUMBER, sent_slots
from check.slots import SlotBySlot

FLAGS = ("--ahead", "--json")


class Options:
    """What is asked for, taken off the words."""

    def __init__(self, words):
        self.flags = set()
        self.frame_slots = self.calls = None
        while words and words[0] in (*FLAGS, "--slots", "--calls"):
            self.take(words.pop(0), words)
        self.booked, self.sent = two_names(words, self.calls)

    def take(self, option, words):
        if option in FLAGS:
            self.flags.add(option)
        elif option == "--slots":
            self.frame_slots = frame_of_slots(words.pop(0) if words else "")
        elif words:
            self.calls = words.pop(0)
        else:
            raise Trouble("--calls takes a file of calls, and none is named"
                          + MORE)


def frame_of_slots(text):
    """F of --slots."""
    if not NUMBER.fullmatch(text) or not 1 <= int(text) <= 64:
        raise Trouble("--slots takes F, the slots to a frame, 1 to 64, and "
                      "not '%s'%s" % (shown(text), MORE))
    return int(text)


def two_names(words, calls):
    if words[:1] == ["--"]:
        del words[:1]
    elif words and len(words[0]) > 1 and words[0].startswith("-"):
        raise Trouble("there is no option '%s'%s" % (shown(words[0]), MORE))
    if len(words) != 2:
        raise Trouble("two files are compared, BOOKED and SENT, and %d %s "
                      "named%s" % (len(words),
                                   "is" if len(words) == 1 else "are", MORE))
    if [*words, calls].count("-") > 1:
        raise Trouble("only one of the files can be standard input")
    return words


class Comparison:
    """The two files, slot by slot."""

    def __init__(self, options):
        self.options = options
        ahead = "--ahead" in options.flags
        calls = options.calls and Calls(options.calls)
        self.frame_slots = options.frame_slots or (
            calls and calls.plan.frame_slots) or None
        self.booked = Booked(options.booked, calls, ahead)
        window = min(calls.plan.positions, WINDOW) if calls else WINDOW
        self.compared = (Sending(window, self.booked.due) if ahead
                         else SlotBySlot())
        self.slot = 0                   # the last that was compared

    def report(self):
        pairs = itertools.zip_longest(
            self.compared.reads(self.booked.owners()),
            sent_slots(self.options.sent), fillvalue=ENDED)
        for self.slot, (owner, flow) in enumerate(pairs, 1):
            self.compared.add(self.slot, owner, flow)
        self.compared.end()
        return Report(self.compared, self.booked, self.frame_slots)


def printed(text):
    try:
        print(text, flush=True)
    except OSError:
        os.dup2(os.open(os.devnull, os.O_WRONLY), 1)
        raise Trouble("output was lost: what came of it is not printed"
                      ) from None


def main(words):
    comparison = Comparison(Options(words))
    try:
        report = comparison.report()
    except KeyboardInterrupt:
        raise Trouble("broken off after slot %d" % comparison.slot) from None
    printed(report.json() if "--json" in comparison.options.flags
            else "\n".join(report.lines()))
    return report.status


def stop(text, as_json):
    """Ends with a sentence on standard error, and for programs an object."""
    print("check-log: %s" % text, file=sys.stderr)
    if as_json:
        try:
            print(json.dumps({"verdict": "not compared",
                              "status": NOT_COMPARED, "error": text},
                             indent=1), flush=True)
        except OSError:
            os.dup2(os.open(os.devnull, os.O_WRONLY), 1)
    sys.exit(NOT_COMPARED)


if __name__ == "__main__":
    AS_JSON = "--json" in sys.argv[1:]
    try:
        sys.exit(main(sys.argv[1:]))
    except Trouble as trouble:
        stop(str(trouble), AS_JSON)
    except KeyboardInterrupt:
        stop("broken off", AS_JSON)

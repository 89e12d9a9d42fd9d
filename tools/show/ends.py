"""How a command for people reads its files, writes its output and ends."""

import json
import os
import signal
import sys

signal.signal(signal.SIGINT, signal.SIG_DFL)    # a break ends it without words
VERDICTS = {1: "refused", 2: "not played", 3: "not whole"}   # by exit status
for_programs = []       # has something where an end is to print an object, too


def stop(script, status, text):
    """Ends with a sentence on standard error."""
    try:
        print("%s: %s" % (script, text), file=sys.stderr, flush=True)
    except (OSError, AttributeError):
        pass                    # standard error takes nothing
    if for_programs:
        for_programs.clear()
        write_output(script, (json.dumps({
            "verdict": VERDICTS[status], "status": status,
            "error": str(text).replace("\n%s: " % script, "\n")}, indent=1)
            + "\n").encode())
    sys.exit(status)


def read_file(script, path, most=-1):
    """A file's bytes, the first so many where a number is given; - is
    standard input."""
    source = open_file(script, path)
    try:
        with os.fdopen(source, "rb", closefd=path != "-") as file:
            return file.read(most)
    except OSError as wrong:
        stop(script, 2, "'%s' can't be read: %s" % (path, wrong.strerror))


def open_file(script, path):
    """The file descriptor of a file; - is standard input."""
    if path == "-":
        if sys.stdin is None:
            stop(script, 2, "standard input is closed, and - stands for it")
        return sys.stdin.fileno()
    try:
        return os.open(path, os.O_RDONLY)
    except OSError as wrong:
        stop(script, 2, "'%s' can't be read: %s" % (path, wrong.strerror))


def write_output(script, data):
    """Writes bytes to standard output, or ends with 3."""
    if sys.stdout is None:
        stop(script, 3, "standard output is closed: nothing can be written")
    left = memoryview(data)
    try:
        while left:
            left = left[os.write(sys.stdout.fileno(), left):]
    except OSError:
        for_programs.clear()
        stop(script, 3, "output was lost: standard output took no more")

"""The files that are read, and what is said of one that can't be."""

import sys
from functools import lru_cache, partial

LONGEST = 200                   # bytes of a line that are read
MORE = "; ./check-log --help says more"


class Trouble(Exception):
    """A sentence: why the two can't be compared."""


def opened(name, role):
    """A file to read, or standard input."""
    if name == "-":
        if sys.stdin is None:
            raise Trouble("standard input is closed, and - stands for it")
        return sys.stdin.buffer
    try:
        return open(name, "rb")
    except FileNotFoundError:
        raise Trouble("there is no file '%s'" % shown(name)) from None
    except IsADirectoryError:
        raise Trouble("'%s' is a directory, not %s"
                      % (shown(name), role)) from None


def pieces_of(name, role, reader):
    """What the reader of a file takes from it each time, until that is
    nothing."""
    try:
        with opened(name, role) as source:
            yield from iter(reader(source), b"")
    except OSError as error:
        raise Trouble("%s can't be read: %s" % (
            called(name), error.strerror or error)) from None


@lru_cache(maxsize=1024)
def text_of(line):
    """A line without blanks around it."""
    return line.decode("latin-1").strip(" \t\r\n")


def lines_of(name, role):
    """Each line.  Of one that is too long to be a line, its beginning."""
    return map(text_of, pieces_of(
        name, role, lambda source: partial(source.readline, LONGEST)))


def shown(text):
    """A text cut to what a sentence can bear, with ? for what can't be
    printed."""
    text = "".join(c if c.isascii() and c.isprintable() else "?" for c in text)
    return text if len(text) <= 60 else text[:57] + "..."


def called(name):
    return "standard input" if name == "-" else "'%s'" % shown(name)

"""./play where the input can't be read to its end: that is told as what it is,
within the plan's bytes and after them, and is never taken for the end."""

import contextlib
import ctypes
import json
import mmap
import os
import tty

import call_bytes
from edges.edge_maker import BASE
from front_door.command import trouble
from front_door.play_tree import NOT_PLAYED, NOT_WHOLE, in_traced_trees

DATA = BASE + 3 * call_bytes.TICK
FEW = (0, 1)                    # bytes by which no text or plan can be told
IN_PLAN = (2, 3, 11, len(BASE) - 1)
AFTER = (len(BASE), len(BASE) + 7, len(DATA))
WAYS = (["--explain"], ["--summary"], ["--health"], ["--window"],
        ["--timeline", "/dev/null"], ["--page", "/dev/null"])
NOT_READ = "play: standard input can't be read, or its call file kept: " \
    "Input/output error"
LOST = "play: dometrace: input was lost: standard input can't be read"
NOT_TO_ITS_END = "play: standard input can't be read to its end: " \
    "Input/output error"


# ---- inputs that break off

@contextlib.contextmanager
def broken_file(data):
    """A file with these bytes, behind which a read fails: the memory of this
    process before a page that is not there."""
    size = mmap.PAGESIZE
    memory = ctypes.CDLL(None)
    memory.mmap.restype = ctypes.c_void_p
    place = memory.mmap(None, ctypes.c_size_t(2 * size),
                        mmap.PROT_READ | mmap.PROT_WRITE,
                        mmap.MAP_PRIVATE | mmap.MAP_ANONYMOUS, -1,
                        ctypes.c_long(0))
    memory.munmap(ctypes.c_void_p(place + size), ctypes.c_size_t(size))
    ctypes.memmove(place + size - len(data), data, len(data))
    source = os.open("/proc/self/mem", os.O_RDONLY)
    os.lseek(source, place + size - len(data), os.SEEK_SET)
    try:
        yield source
    finally:
        os.close(source)
        memory.munmap(ctypes.c_void_p(place), ctypes.c_size_t(size))


@contextlib.contextmanager
def broken_line(data):
    """The same of what can't be read again from its beginning: a terminal
    whose other end is gone."""
    source, writer = os.openpty()
    tty.setraw(writer)
    os.write(writer, data)
    os.close(writer)
    try:
        yield source
    finally:
        os.close(source)


def wrong(tree, broken, length, way, later):
    """What is wrong with how a way ends on an input that breaks off after so
    many bytes; `later` is what it says where it can be told what it is."""
    with broken(DATA[:length]) as source:
        ended = tree.start(*way, "-", stdin=source)
    found = trouble(ended, *((NOT_PLAYED, None, NOT_READ) if length in FEW
                             else (NOT_WHOLE, None, later)))
    return found and "%s, %d bytes: %s" % (way, length, found)


def first_wrong(tree, broken, later):
    """By one way after each number of bytes, by each way within the plan and
    after it."""
    cases = [(length, WAYS[0]) for length in FEW + IN_PLAN + AFTER]
    cases += [(length, way) for length in (IN_PLAN[1], AFTER[1])
              for way in WAYS[1:]]
    return next(filter(None, (wrong(tree, broken, *case, later)
                              for case in cases)), None)


# ---- tests

def a_file_that_breaks_off(tree):
    return first_wrong(tree, broken_file, LOST)


def a_line_that_breaks_off(tree):
    return first_wrong(tree, broken_line, NOT_TO_ITS_END)


def what_was_played_is_said(tree):
    """The calls before the break stand there."""
    for broken in (broken_file, broken_line):
        with broken(DATA) as source:
            ended = tree.start("--explain", "-", stdin=source)
        if b"slot 3 (position 3, frame 0) has come up" not in ended.output:
            return "%s: %s" % (broken.__name__, ended.output)
    return None


def as_an_object(tree):
    """For programs: the sentence, and the status."""
    with broken_file(DATA[:5]) as source:
        ended = tree.start("--health", "--json", "-", stdin=source)
    return trouble(ended, NOT_WHOLE, None, LOST) or (
        json.loads(ended.output) != {
            "verdict": "not whole", "status": NOT_WHOLE,
            "error": LOST[len("play: "):]} and ended.output)


TESTS = (a_file_that_breaks_off, a_line_that_breaks_off,
         what_was_played_is_said, as_an_object)


def tests(programs):
    yield from in_traced_trees(TESTS)

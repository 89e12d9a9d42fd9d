"""Programs whose reader is too slow: the pipe is full and doesn't wait; and
input that can't be read.

domelink says that output was lost; domeplan waits for its reader, and says it
where the output takes nothing at all."""

import os
import subprocess
import tempfile
import time

import call_bytes
from edges.edge_maker import BASE
from front_door.command import (
    LIMIT, ROOT, into_full_pipe, redirected, small_pipe, start, trouble)
from simulator.listing import simulate

CALLS = BASE + 5000 * call_bytes.TICK + call_bytes.TICK[:2]
LISTING = "".join(line + "\n" for line in simulate(CALLS)).encode()
QUESTIONS = 5000 * b"plan 4 2 4\n" + b"read"
ANSWERS = 5000 * b"R 2\n" + b"R 1\n"

PIECE = 700             # bytes that a slow reader takes at a time
PAUSE = 0.002           # seconds between two of them
FIRST = 0.2             # and before the first, when the pipe is long full


def source_of(data):
    source = tempfile.TemporaryFile()
    source.write(data)
    source.seek(0)
    return source


# ---- domelink

def only_a_beginning(program):
    with source_of(CALLS) as source:
        written = into_full_pipe([program], stdin=source).output
    if written == LISTING:
        return "nothing was lost, so nothing is shown"
    return not LISTING.startswith(written) and "ends in %r" % written[-20:]


def lost_output_is_said(program):
    """One line on standard error: rule 13.1."""
    with source_of(CALLS) as source:
        errors = into_full_pipe([program], stdin=source).errors
    lines = errors.splitlines()
    right = (len(lines) == 1 and lines[0].startswith("domelink: ")
             and "output" in lines[0])
    return not right and "on standard error: %r" % errors


# ---- domeplan

def slowly(reader):
    """All that is read from a pipe, a little at a time."""
    read = b""
    time.sleep(FIRST)
    while True:
        piece = os.read(reader, PIECE)
        if not piece:
            return read
        read += piece
        time.sleep(PAUSE)


def nothing_is_lost(program):
    """The answers to a file, read slowly from a pipe that doesn't wait."""
    reader, writer = small_pipe()
    with source_of(QUESTIONS) as source:
        process = subprocess.Popen([program], stdin=source, stdout=writer,
                                   stderr=subprocess.PIPE)
        os.close(writer)
        written = slowly(reader)
        errors = process.stderr.read()
        status = process.wait(timeout=LIMIT)
        process.stderr.close()
    os.close(reader)
    if written != ANSWERS:
        return "%d bytes for %d" % (len(written), len(ANSWERS))
    return (status or errors) and "status %d, %r" % (status, errors)


def is_said(redirection):
    """An output that takes nothing is not waited for."""
    def ends(program):
        if "/dev/full" in redirection and not os.path.exists("/dev/full"):
            return None
        return trouble(start(redirected(redirection, program), input=b"read"),
                       says="domeplan: output was lost")
    return ends


DOMEPLAN = {
    "a slow reader's full pipe is waited for": nothing_is_lost,
    "a full disk is said on standard error": is_said(">/dev/full"),
    "a closed output is said on standard error": is_said(">&-")}


def input_that_cannot_be_read(program):
    """Rules 13.1 and 26.1: a closed one and a directory are told, and nothing
    is written."""
    for redirection in ("<&-", "</"):
        wrong = trouble(start(redirected(redirection, program)), output=b"",
                        says="%s: input was lost: standard input can't be "
                        "read" % os.path.basename(program))
        if wrong:
            return "%s: %s" % (redirection, wrong)
    return None


def tests(programs):
    for name in ("domelink", "dometrace"):
        yield (name + ": input that can't be read is said",
               lambda name=name: input_that_cannot_be_read(
                   ROOT / "target/bin" / name))
    yield ("domelink: a full pipe has the beginning of the output",
           lambda: only_a_beginning(programs["domelink"]))
    yield ("domelink: lost output is said on standard error",
           lambda: lost_output_is_said(programs["domelink"]))
    for name, test in DOMEPLAN.items():
        yield ("domeplan: " + name,
               lambda test=test: test(programs["domeplan"]))

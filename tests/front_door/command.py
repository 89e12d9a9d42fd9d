"""A command started as a user starts it, and how it has to end."""

import fcntl
import os
import select
import subprocess
from pathlib import Path

ROOT = Path(__file__).resolve().parents[2]
LIMIT = 60              # seconds
PIPE_SIZE = 4096
SET_PIPE_SIZE = 1031    # Linux: F_SETPIPE_SZ, which Python names from 3.10 on


class Ended:
    def __init__(self, status, output, errors):
        self.status = status
        self.output = output            # bytes
        self.errors = errors            # text of standard error


def start(words, **options):
    """Starts a command, with options of subprocess.run, and waits for it."""
    if "input" not in options:
        options.setdefault("stdin", subprocess.DEVNULL)
    options.setdefault("stdout", subprocess.PIPE)
    done = subprocess.run([str(word) for word in words], timeout=LIMIT,
                          stderr=subprocess.PIPE, **options)
    return Ended(done.returncode, done.stdout,
                 done.stderr.decode(errors="replace"))


def small_pipe():
    """The two ends of a small pipe that doesn't wait for its reader."""
    reader, writer = os.pipe()
    fcntl.fcntl(writer, SET_PIPE_SIZE, PIPE_SIZE)
    os.set_blocking(writer, False)
    return reader, writer


def into_full_pipe(words, **options):
    """How a command ends whose output goes to a small pipe that doesn't wait
    and that nobody reads meanwhile; its output is what stands there then."""
    reader, writer = small_pipe()
    ended = start(words, stdout=writer, **options)
    os.close(writer)
    with os.fdopen(reader, "rb") as pipe:
        ended.output = pipe.read()
    return ended


def line_of(process):
    """The next line of a process, or nothing if it takes too long."""
    ready = select.select([process.stdout], [], [], LIMIT)[0]
    return process.stdout.readline() if ready else b""


def talk(words, turns):
    """What is wrong where a command has to answer each piece of its input by
    a line before it gets the next one, or None."""
    process = subprocess.Popen([str(word) for word in words], bufsize=0,
                               stdin=subprocess.PIPE, stdout=subprocess.PIPE)
    for piece, line in turns:
        process.stdin.write(piece)
        heard = line_of(process)
        if heard != line:
            break
    process.stdin.close()
    rest = process.stdout.read()
    process.stdout.close()
    status = process.wait(timeout=LIMIT)
    if heard != line:
        return "%r for %r" % (heard, line)
    return (rest or status) and "status %d, then %r" % (status, rest)


def redirected(redirection, *words):
    """The words of a command that sh starts with a redirection."""
    return ["sh", "-c", 'exec "$@" ' + redirection, "sh", *words]


def trouble(ended, status=0, output=None, says=None, then=None):
    """What is wrong, or None.  With `says` standard error has to be one line
    with these words, and with `then` another one with those; else it has to
    be empty."""
    if ended.status != status:
        return "status %d for %d: %s" % (ended.status, status,
                                         ended.errors[-300:])
    if output is not None and ended.output != output:
        return "other output: %r" % ended.output[:60]
    lines = ended.errors.splitlines()
    wanted = [words for words in (says, then) if words is not None]
    if len(lines) != len(wanted) or not all(
            words in line for words, line in zip(wanted, lines)):
        return "on standard error not %s, but: %s" % (
            wanted or "nothing", ended.errors[:400])
    return None

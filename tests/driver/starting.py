"""A program started on a call file, whole or in pieces."""

import array
import fcntl
import os
import subprocess
import tempfile
import termios
import time

LIMIT = 60              # seconds for one file
NO_END = "no end after %d seconds" % LIMIT


class Played:
    """What a program gave."""

    def __init__(self, output, trouble):
        self.output = output            # bytes of the listing
        self.trouble = trouble          # text, or None for an ordinary end


def trouble_of(status, errors):
    """No rule names a status; an ordinary end is 0 and a quiet one."""
    if status < 0:
        return "ended by signal %d" % -status
    if status:
        return "ended with status %d: %r" % (status, errors[-200:])
    if errors:
        return "wrote on standard error: %r" % errors[-200:]
    return None


def play(command, data):
    """Play a call file from a file on standard input.  The command is the
    program's path and its arguments."""
    with tempfile.TemporaryFile() as source:
        source.write(data)
        source.flush()
        source.seek(0)
        try:
            done = subprocess.run(command, stdin=source, timeout=LIMIT,
                                  capture_output=True)
        except subprocess.TimeoutExpired:
            return Played(b"", NO_END)
    return Played(done.stdout, trouble_of(done.returncode, done.stderr))


def unread(pipe):
    """How many bytes stand in the pipe."""
    count = array.array("i", [0])
    fcntl.ioctl(pipe, termios.FIONREAD, count)
    return count[0]


def feed(process, pipe, data, size):
    """Write pieces, each only after the one before was read."""
    deadline = time.monotonic() + LIMIT
    try:
        for start in range(0, len(data), size):
            os.write(pipe, data[start:start + size])
            while unread(pipe) and process.poll() is None:
                if time.monotonic() > deadline:
                    return
                time.sleep(0)
    except BrokenPipeError:             # the program ended before the input
        pass


def play_in_pieces(command, data, size):
    """Play a call file through a pipe, `size` bytes at a time."""
    with tempfile.TemporaryFile() as output, \
            tempfile.TemporaryFile() as errors:
        process = subprocess.Popen(command, stdin=subprocess.PIPE,
                                   stdout=output, stderr=errors, bufsize=0)
        feed(process, process.stdin.fileno(), data, size)
        process.stdin.close()
        try:
            status = process.wait(timeout=LIMIT)
            trouble = None
        except subprocess.TimeoutExpired:
            process.kill()
            process.wait()
            trouble = NO_END
        output.seek(0)
        errors.seek(0)
        listing, complaint = output.read(), errors.read()
    return Played(listing, trouble or trouble_of(status, complaint))

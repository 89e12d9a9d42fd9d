"""Questions that come to domeplan in pieces: cut at every place, a byte at a
time, lines of any length, words in capitals; and many answers in one write.

The answers are those of docs/RULES.md, section 20, by hand."""

import os
import subprocess
import tempfile

from driver.starting import LIMIT, feed, play, play_in_pieces

# Two questions, an empty line, one that is none, and a last one that no
# newline ends.
FILE = b"plan 4 2 13 3 11 5 9\n\nread 1\ncount 4 2"
NONE = (b"? the first word is none of plan, room, read, mesh, mesh-over, "
        b"count, extras, programme, delay, faults and "
        b"week-faults\n")
ANSWERS = (b"100001000c00040002000d00030b0509\n" + NONE
           + b"? the number of hexadecimal digits is odd\n" + b"6 10\n")

WORDS = (b"plan", b"room", b"read", b"mesh", b"mesh-over", b"count",
         b"extras", b"programme", b"delay", b"faults",
         b"week-faults")

# 4,000 bytes are a question; the others lie beside that, beside what is read
# at once, and far past both.
LENGTHS = (3999, 4000, 4001, 4002, 8000, 65535, 65536, 65537, 200000)
LONG = b"? the line has more than 4,000 bytes\n"
PACKETS = 100           # questions whose answers fit one packet of a pipe


def difference(expected, played):
    if played.trouble:
        return played.trouble
    return played.output != expected and "%r" % played.output[:80]


def cut_at(program, place):
    """What is written for the file in two pieces."""
    process = subprocess.Popen([program], stdin=subprocess.PIPE, bufsize=0,
                               stdout=subprocess.PIPE)
    pipe = process.stdin.fileno()
    for piece in (FILE[:place], FILE[place:]):
        feed(process, pipe, piece, len(piece) or 1)
    process.stdin.close()
    written = process.stdout.read()
    process.stdout.close()
    process.wait(timeout=LIMIT)
    return written


def cut_anywhere(program):
    for place in range(len(FILE) + 1):
        written = cut_at(program, place)
        if written != ANSWERS:
            return "cut at %d: %r" % (place, written[:80])
    return None


def byte_by_byte(program):
    return difference(ANSWERS, play_in_pieces([program], FILE, 1))


def whole(program):
    return difference(ANSWERS, play([program], FILE))


def with_newline(program):
    """A newline at the end makes no difference."""
    return difference(ANSWERS, play([program], FILE + b"\n"))


def lengths(program):
    """A line of any length gets one answer, and the next one its own."""
    for length in LENGTHS:
        line = b"read" + (length - 4) * b"x"
        expected = b"R 1\n" + (LONG if length > 4000 else NONE) + b"R 1\n"
        data = b"read\n" + line + b"\nread\n"
        wrong = difference(expected, play([program], data)) or difference(
            expected, play_in_pieces([program], data, 1000))
        if wrong:
            return "%d bytes: %s" % (length, wrong)
    return None


def capitals(program):
    """Each word in capitals, and with one, is no word."""
    lines = [spelt for word in WORDS
             for spelt in (word.upper(), word.capitalize())]
    return difference(len(lines) * NONE, play([program], b"\n".join(lines)))


def packets_of(program, data):
    """What it writes for a file, each write by itself."""
    reader, writer = os.pipe2(os.O_DIRECT)
    with tempfile.TemporaryFile() as source:
        source.write(data)
        source.seek(0)
        process = subprocess.Popen([program], stdin=source, stdout=writer)
    os.close(writer)
    packets = list(iter(lambda: os.read(reader, 65536), b""))
    os.close(reader)
    process.wait(timeout=LIMIT)
    return packets


def one_write(program):
    """The answers to a short file come in one packet of a pipe that keeps
    writes apart."""
    packets = packets_of(program, PACKETS * b"count 4 2\n")
    return packets != [PACKETS * b"6 10\n"] and "%d writes" % len(packets)


TESTS = {
    "cut into two pieces at every place": cut_anywhere,
    "a byte at a time": byte_by_byte, "whole": whole,
    "whole, with a last newline": with_newline,
    "lines of any length": lengths, "words in capitals": capitals,
    "one write for the answers to a file": one_write}


def tests(programs):
    for name, test in TESTS.items():
        yield ("domeplan: " + name,
               lambda test=test: test(programs["domeplan"]))

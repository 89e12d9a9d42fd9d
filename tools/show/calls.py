"""tools/calls: call files as text, there and back."""

import signal
import sys

import call_file
from call_stream import PIECE, begin, is_a_text, made_of_text, pieces_of
from call_text import TextError, TextReader
from ends import open_file, stop, write_output
from following import CountingLine
from text_lines import writer_for

HELP = """\
tools/calls TEXT >FILE         makes a call file of a text
tools/calls --back FILE >TEXT  makes a text of a call file
tools/calls --bytes FILE       makes a call file of either
tools/calls --version          says which version this is
A file of - is standard input.  --allcalls in front adds the last three calls.

A line is one of these; what follows a # is a comment:

  plan F=4 W=2 N=4                    slots, frames, buffer: the first line
  flow share=2 cells=2 from=1 to=9    the next flow, from 0 on, and its nodes
  ask 0 number=3 departure=5          flow 0 asks for a slot
  ask 0                               with its next number, for a tile that has
                                      come
  ask 0 again                         the same number again, after a refusal
  credit 0 4                          a cell of flow 0 is free from position 4
  tick                                the next slot; tick 5 is five of them
  word 0x24000000                     asks with the bits of a look-ahead word
  bytes 01 FF                         bytes as they are, in hexadecimal digits
  lend 0 2                            lends the current slot to one of these
  reset                               a local reset
  burst 2                             a burst of the next 2 asks or words

A departure that isn't given is the current position, a number the count of
the flow's asks so far that are not marked again, modulo 1,024.  ask 0 to=8
names another node than the plan's.  word and bytes count for neither.
The numbers are not tested, so that what a link refuses can be written too.

Exit status: 0 it is written; 1 the text is wrong, and a sentence names the
line, or what --back got is a text already; 2 nothing was read; 3 the output is
not whole.
"""
OPTIONS = ("--back", "--bytes", "--allcalls")
ALONE = ("--help", "--version")


def say(status, text):
    stop("calls", status, text)


def is_call_file(begun):
    """Whether a file begins with the bytes of a plan."""
    try:
        call_file.split(begun)
    except call_file.NoPlan:
        return False
    return True


class Made:
    """What is written of a file, in pieces."""

    def __init__(self, options, path, name):
        self.all_calls = "--allcalls" in options
        self.back = "--back" in options
        self.either = "--bytes" in options
        self.source, self.name = open_file("calls", path), name
        self.counts = None              # counts in words what is read

    def pieces(self):
        begun = begin(self.source, True)
        text = is_a_text(begun)
        if self.back:
            if text:
                say(1, "%s is a text already; without --back a call file is "
                    "made of it" % self.name)
            yield from self.text(begun)
        elif self.either and not text:
            yield from pieces_of(begun, self.source)
        else:
            if is_call_file(begun):
                say(1, "%s is a call file already; --back makes a text of it"
                    % self.name)
            yield from self.bytes(begun)

    def text(self, begun):
        writer = writer_for(begun, self.all_calls)
        self.counts = lambda: "call %d" % writer.calls
        for piece in pieces_of(begun, self.source):
            yield writer.write(piece).encode()
        yield writer.end().encode()

    def bytes(self, begun):
        reader = TextReader(self.all_calls)
        self.counts = lambda: "line %d" % reader.lines
        made = made_of_text(reader, pieces_of(begun, self.source))
        yield from iter(lambda: made.read(PIECE), b"")

    def counted(self):
        """How far it is, in words."""
        return self.counts() if self.counts else "the beginning"


def write_all(made, to_terminal):
    """Writes the pieces; where they are bytes, not to a terminal."""
    line = CountingLine(lambda: "calls: " + made.counted())
    line.shown = line.shown and not to_terminal
    line.start()
    try:
        for piece in made.pieces():
            if to_terminal and not made.back:
                say(2, "a call file is bytes, and standard output is a "
                    "terminal: send it to a file, as in tools/calls FILE "
                    ">OUT")
            write_output("calls", piece)
    except TextError as wrong:
        line.end()
        say(1, "%s, %s" % (made.name, wrong))
    except OSError as wrong:
        line.end()
        say(2, "%s can't be read, or its call file kept: %s" % (
            made.name, wrong.strerror))
    except KeyboardInterrupt:
        line.end()
        say(3, "broken off after %s" % made.counted())
    finally:
        line.end()


def options_of(words):
    """The options, which are taken off the words."""
    options = []
    while words and words[0].startswith("--") and words[0] != "--":
        options.append(words.pop(0))
    if words[:1] == ["--"]:
        words.pop(0)
    for option in options:
        if option in ALONE:
            say(2, "%s stands alone: leave out the other words" % option)
        if option not in OPTIONS:
            say(2, "there is no option '%s'; tools/calls --help says what "
                "there is" % option)
    return options


def main(words):
    if words[:1] in (["--help"], ["-h"]):
        return write_output("calls", HELP.encode())
    options = options_of(words)
    if len(words) != 1:
        say(2, "one file is read, and %d are named; tools/calls --help says "
            "more" % len(words))
    signal.signal(signal.SIGINT, signal.default_int_handler)
    name = "standard input" if words[0] == "-" else "'%s'" % words[0]
    write_all(Made(options, words[0], name),
              bool(sys.stdout) and sys.stdout.isatty())
    write_output("calls", b"")


if __name__ == "__main__":
    main(sys.argv[1:])

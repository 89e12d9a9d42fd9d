"""A call file or its text, read in pieces: what is told of its beginning, and
the call file that a text makes."""

import os
import tempfile

from call_file import LONGEST
from call_text import TextError, TextReader, is_text

PIECE = 1 << 16         # bytes that are read at a time
LONGEST_LINE = 1 << 16  # bytes of a line of a text
IN_MEMORY = 1 << 20     # bytes of a text's call file; more go to the disk


def is_enough(data, plan):
    """Whether a text can be told by these bytes.  What has a 0 as its second
    byte, as plans have and texts don't, is none; then with `plan` its plan has
    to be there too, which is as long as its first byte says."""
    if len(data) >= 2 and data[1] == 0:
        return not plan or len(data) >= min(data[0], LONGEST)
    return len(data) >= PIECE


def begin(source, plan=False):
    """The first bytes."""
    data = b""
    while not is_enough(data, plan):
        piece = os.read(source, PIECE)
        if not piece:
            break
        data += piece
    return data


def is_a_text(begun):
    return 0 not in begun[1:2] and is_text(begun)


def pieces_of(begun, source):
    """What is read so far, and what follows."""
    while begun:
        yield begun
        begun = os.read(source, PIECE)


def text_lines(pieces):
    """The lines of a text that comes in pieces of bytes."""
    rest, count = b"", 0
    for piece in pieces:
        lines = (rest + piece).split(b"\n")
        rest = lines.pop()
        count += len(lines)
        for line in lines:
            yield line.decode("utf-8", "replace")
        if len(rest) > LONGEST_LINE:
            raise TextError("line %d: it has more than %d bytes, so that this "
                            "is no text" % (count + 1, LONGEST_LINE))
    yield rest.decode("utf-8", "replace")


def made_of_text(reader, pieces):
    """A file with the bytes of a text, at its beginning; it goes when it is
    closed.  A TextError names the line, so that nothing is made of a wrong
    text."""
    made = tempfile.SpooledTemporaryFile(IN_MEMORY)
    for line in text_lines(pieces):
        reader.read_next(line)
        if reader.size >= PIECE:
            made.write(reader.taken())
    made.write(reader.data())
    made.seek(0)
    return made


def pieces_of_text(begun, source, all_calls):
    """The pieces of the call file that a text makes."""
    made = made_of_text(TextReader(all_calls), pieces_of(begun, source))
    return iter(lambda: made.read(PIECE), b"")

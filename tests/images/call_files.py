"""A call file played through images: its listing, and the bytes of the buffer
after each call, or at the end.
"""

from images.host import Script, run
from images.results import line_of, record_line
from simulator.image import image_of
from simulator.listing import split_file, steps
from simulator.records import ALLCALLS, read_record, split

OLD = b"\xee"                           # in the buffer before fresh
PAST = b"\xc3\x5a\x00"                  # after the image
LONGEST = 8894
HANDLED = 16                            # records of a burst


def calls_of(rest):
    """What each line of a listing answers: a call, or None where none is made,
    and how its line is got from the call and its result.  A burst is made as
    single requests."""
    for record in split(rest, ALLCALLS):
        call = read_record(record, ALLCALLS)
        if not call:
            yield None, "R 16"
        elif call[0] != "burst":
            yield call, line_of
        else:
            for word in call[1][:HANDLED]:
                yield ("request", word), record_line
            for _ in call[1][HANDLED:]:
                yield None, "B 255 255"


def script_of(plan, calls, length, each):
    script = Script()
    script.buffer(OLD * length + PAST)
    script.fresh(plan)
    for call, _ in calls:
        if each:
            script.get()
        if call:
            script.call(call)
    script.get()
    return script


class Played:
    """What came of a call file: its lines, the buffers, or what went wrong."""

    def __init__(self, lines=(), buffers=(), wrong=None):
        self.lines = list(lines)
        self.buffers = list(buffers)
        self.wrong = wrong


def play(command, data, length, each=False):
    """Through a buffer of an image's length, and some bytes more.  The buffers
    are those after fresh and each call, or at the end alone."""
    parts = split_file(data)
    if parts is None:
        return Played(["P 1"])
    calls = list(calls_of(parts[1]))
    answers, wrong = run(command, script_of(parts[0], calls, length, each))
    if wrong:
        return Played(wrong=wrong)
    buffers = [answer for answer in answers if isinstance(answer, bytes)]
    made, *results = [answer for answer in answers if isinstance(answer, int)]
    if made:
        return Played(["P %d" % (made >> 32)], buffers[:1])
    results = iter(results)
    return Played(["P 0"] + [line(call, next(results)) if call else line
                             for call, line in calls], buffers)


def buffer_of(image, length):
    """What a buffer has to hold with an image, or b"" for none."""
    return image + OLD * (length - len(image)) + PAST


def images_after(data):
    """The simulator's image after each line, b"" for none."""
    return [image_of(link) if link else b""
            for _, link in steps(data, ALLCALLS)]


def difference(played, images, length):
    """Text on the first buffer that differs from its image, or None."""
    for place, (found, image) in enumerate(zip(played.buffers, images)):
        wanted = buffer_of(image, length)
        if found != wanted:
            at = next((at for at in range(len(wanted))
                       if found[at:at + 1] != wanted[at:at + 1]), len(wanted))
            return "buffer %d: byte %d is %s, not %s" % (
                place, at, found[at:at + 1].hex(), wanted[at:at + 1].hex())
    return None

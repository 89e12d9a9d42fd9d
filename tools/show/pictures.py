"""Pictures of a call file, from its trace.

    pictures.py --window [--svg OUT] PROGRAM FILE [CALL]
    pictures.py --svg OUT PROGRAM FILE [CALL]
    pictures.py --timeline OUT [--from SLOT] [--to SLOT] PROGRAM FILE
    pictures.py --page OUT [--from SLOT] [--to SLOT] PROGRAM FILE

PROGRAM is dometrace, standard input has the calls or their text, and FILE is
what they are called.  --window draws the window after call number CALL in the
terminal, --svg OUT writes it as SVG; CALL is the last call where it is
missing, and 0 the fresh link.  --timeline OUT writes an SVG of the booked,
lent and idle slots by flow, and of refusals; --page OUT one HTML page that
needs no network: the window and the holdings call by call; its address may
end in #call=17 or #slot=40.  Both are of the slots from --from to --to, and of
the whole file where these are missing; but a timeline has at most 16,384
slots, and a page 50,000 calls, and where the file goes on it is said.  With
--allcalls FILE has lends, resets and bursts too.  OUT may be -, standard
output; of a file it is said on standard error that it is written.

Exit status: 0 the pictures are whole; 1 the plan is refused; 2 nothing was
drawn; 3 a picture could not be written.
"""

import os
import stat
import sys

import page
import svg
import timeline
import window
from following import follow
from kept import Kept
from words import plural

NOTHING_DRAWN, NOT_WRITTEN = 2, 3
FLAGS = ("--window", "--allcalls")
STRETCH = ("--from", "--to")
VALUED = ("--svg", "--timeline", "--page", *STRETCH)
OUTPUTS = ("--svg", "--timeline", "--page")
PICTURES = ("--window", *OUTPUTS)
DIGITS = 15                     # of a number that is looked at


class Wrong(Exception):
    """What can't be drawn, in a sentence."""


class NotWritten(Exception):
    """What could not be written, in a sentence."""


# ---- arguments

def options_of(words):
    """The options by name, and the other words."""
    options, others, words = {}, [], list(words)
    while words:
        word = words.pop(0)
        if word == "--":
            others += words
            break
        if word in options:
            raise Wrong("%s is there twice" % word)
        if word in FLAGS:
            options[word] = True
        elif word in VALUED:
            if not words:
                raise Wrong("%s needs a word after it" % word)
            options[word] = words.pop(0)
        elif word.startswith("-") and word != "-":
            raise Wrong("there is no option '%s'" % word)
        else:
            others.append(word)
    return options, others


def call_number(text, last):
    """The call that a picture is drawn after."""
    if text is None:
        return last
    calls = "the file has %s" % plural(last, "call")
    if not (text.isascii() and text.isdigit()):
        raise Wrong("'%s' is no call number: %s, numbered from 1 on, and 0 is "
                    "the link before them" % (text, calls))
    digits = text.lstrip("0") or "0"
    if len(digits) > len(str(last)) or int(digits) > last:
        raise Wrong("there is no call %s: %s" % (text, calls))
    return int(digits)


def check(options, others):
    if not any(option in options for option in PICTURES):
        raise Wrong("no picture is asked for; there are %s"
                    % ", ".join(PICTURES))
    if len(others) < 2:
        raise Wrong("a program and a call file have to be named")
    if len(others) > 3:
        raise Wrong("a program, a file and a call number are all that can "
                    "be named, and there are %d words" % len(others))
    if len(others) == 3 and not ("--window" in options or "--svg" in options):
        raise Wrong("a call number goes with --window or --svg alone, and "
                    "'%s' is one word too many" % others[2])
    check_stretch(options)
    check_outputs(options, others[:2])


def slot_of(options, option):
    """The slot of --from or --to, or None."""
    text = options.get(option)
    if text is None:
        return None
    if not (text.isascii() and text.isdigit() and len(text) <= DIGITS):
        raise Wrong("%s takes a slot, as in %s 40, and not '%s'" % (
            option, option, text))
    return int(text)


def check_stretch(options):
    first, last = (slot_of(options, option) for option in STRETCH)
    given = [option for option in STRETCH if option in options]
    if given and not ("--timeline" in options or "--page" in options):
        raise Wrong("%s goes with --timeline or --page alone" % given[0])
    if last is not None and last < (first or 0):
        raise Wrong("a stretch from slot %d to slot %d has no slots" % (
            first or 0, last))


def same_file(one, other):
    """Whether two files, each a path or a number, are one regular file."""
    try:
        stats = os.stat(one), os.stat(other)
    except OSError:
        return False
    return stat.S_ISREG(stats[0].st_mode) and os.path.samestat(*stats)


def check_outputs(options, inputs):
    """No picture goes over a file that is read, standard input too, or over
    another picture."""
    outputs = [options[option] for option in OUTPUTS if option in options]
    for place, output in enumerate(outputs):
        if any(same_file(output, source) for source in (*inputs, 0)):
            raise Wrong("the picture would be written over '%s', which it is "
                        "made from" % output)
        if output in outputs[:place]:
            raise Wrong("two pictures can't both go to '%s'" % output)
        if output == "-" and "--window" in options:
            raise Wrong("the window goes to standard output, and the picture "
                        "can't go there too")


# ---- reading and writing

def write(path, content):
    """Writes a picture to a file, and says so, or to standard output for
    -."""
    if path == "-":
        show(content)
        return
    try:
        with open(path, "w", encoding="utf-8", newline="\n") as output:
            output.write(content)
    except OSError as error:
        raise NotWritten("'%s' can't be written: %s" % (path, error.strerror))
    say("'%s' is written" % path)


def show(text):
    """Writes on standard output."""
    if sys.stdout is None:
        raise NotWritten("standard output is closed: nothing can be written")
    try:
        sys.stdout.buffer.write(text.encode("utf-8"))
        sys.stdout.buffer.flush()
    except OSError as error:
        raise NotWritten("output was lost, and the picture is not whole: %s"
                         % error.strerror)


def marks():
    """The marks of curves that standard output can take."""
    try:
        window.BLOCKS.encode(getattr(sys.stdout, "encoding", None) or "ascii")
    except (LookupError, UnicodeEncodeError):
        return window.PLAIN
    return window.BLOCKS


# ---- pictures

def printable(name):
    """A name that can stand in a picture."""
    return "".join(letter if letter.isprintable() else "?" for letter in name)


class Wanted:
    """The window after a call, or after the last one for None; and how many
    calls there are."""

    over = False

    def __init__(self, plan, number):
        self.kept = Kept(plan)
        self.number = number
        self.found = False          # the window is the one that is wanted
        self.more = 0               # calls after it

    @property
    def slot(self):
        return self.kept.slot

    @property
    def calls(self):
        return self.kept.calls + self.more

    def add(self, lines):
        for line in lines:
            begins = line[0] not in "FB"
            self.found = self.found or (
                begins and self.kept.calls == self.number)
            if self.found:
                self.more += begins
            else:
                self.kept.take(line.split())


class Several:
    """Readers of one trace, by the option that asks for each."""

    def __init__(self, readers):
        self.readers = readers

    def add(self, lines):
        for reader in self.readers.values():
            if not reader.over:
                reader.add(lines)

    @property
    def over(self):
        return all(reader.over for reader in self.readers.values())

    @property
    def calls(self):
        return max(reader.calls for reader in self.readers.values())

    @property
    def slot(self):
        return max(reader.slot for reader in self.readers.values())


def readers_of(plan, options, number):
    """What reads for each picture."""
    first, last = (slot_of(options, option) for option in STRETCH)
    readers = {}
    if "--window" in options or "--svg" in options:
        readers["--window"] = Wanted(plan, number)
    if "--timeline" in options:
        readers["--timeline"] = timeline.Ledger(plan, first or 0, last)
    if "--page" in options:
        readers["--page"] = page.Flight(plan, first or 0, last)
    return Several(readers)


def number_of(text):
    """A call's number, as far as it is one."""
    known = text and text.isascii() and text.isdigit()
    return int(text) if known and len(text) <= DIGITS else None


def check_slots(reader):
    """The stretch has to begin with a slot that came up."""
    if reader.slot < reader.first:
        raise Wrong("slot %d has not come up: the last is slot %d" % (
            reader.first, reader.slot))


def draw(words):
    options, others = options_of(words)
    check(options, others)
    program, path, number = (others + [None])[:3]
    name = "standard input" if path == "-" else os.path.basename(path)
    several = follow(
        program, name if path == "-" else "'%s'" % path,
        "--allcalls" in options,
        lambda plan: readers_of(plan, options, number_of(number)))
    for reader in (several.readers.get("--timeline"),
                   several.readers.get("--page")):
        if reader:
            check_slots(reader)
    draw_window(several.readers.get("--window"), options, number,
                printable(name))
    draw_stretches(several.readers, options, printable(name))


def draw_window(wanted, options, number, name):
    if not wanted:
        return
    call_number(number, wanted.calls)
    if "--svg" in options:
        write(options["--svg"], svg.window(wanted.kept, wanted.calls, name))
    if "--window" in options:
        show("\n".join(line.rstrip() for line in window.drawing(
            wanted.kept, wanted.calls, marks())) + "\n")


def draw_stretches(readers, options, name):
    if "--timeline" in options:
        ledger = readers["--timeline"]
        write(options["--timeline"], timeline.timeline(ledger, name))
        if ledger.over and ledger.cut:
            say("the file goes on after slot %d, and a timeline has at most "
                "%d slots: --from %d draws the next" % (
                    ledger.last, timeline.MOST, ledger.last + 1))
    if "--page" in options:
        flight = readers["--page"]
        write(options["--page"], page.page(flight, name))
        if flight.full:
            say("the file goes on after call %d, and a page has at most %d "
                "calls: --from %d shows what follows" % (
                    flight.calls, page.MOST, flight.slot))


def say(sentence):
    """Says a sentence on standard error, where that takes it."""
    try:
        sys.stderr.write("play: %s\n" % sentence)
        sys.stderr.flush()
    except (OSError, ValueError, AttributeError):
        pass


def end(status, sentence):
    """Ends with a sentence, also where standard output takes no more."""
    say(sentence)
    os._exit(status)


def main(words):
    try:
        if words in (["--help"], ["-h"]):
            show(__doc__)
        else:
            draw(words)
    except Wrong as error:
        end(NOTHING_DRAWN, error)
    except NotWritten as error:
        end(NOT_WRITTEN, error)


if __name__ == "__main__":
    main(sys.argv[1:])

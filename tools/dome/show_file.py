"""A show file: a line for the dome and one for each stream.  All faults are
found at once, each a sentence with its line's number."""

import re

MOST_BYTES = 65536
MOST_STREAMS = 64
NAME = re.compile(r"[A-Za-z0-9_-]+\Z")
NUMBER = re.compile(r"[0-9]{1,9}\Z")
DOME = ("F", "W", "N")
STREAM = ("from", "to", "share")
MORE = ("cells", "burst")               # of a stream, where they are given


class Stream:
    """A stream by its name, its line's number, and its numbers by key."""

    def __init__(self, name, line, numbers):
        self.name = name
        self.line = line
        self.source = numbers["from"]
        self.destination = numbers["to"]
        self.share = numbers["share"]
        self.cells = numbers.get("cells", 2 * self.share)
        self.last_cells = numbers.get("cells", 3 * self.share)
        self.burst = numbers.get("burst", 0)


class Show:
    """F, W and N with their line's number, and the streams in order."""

    def __init__(self):
        self.dome = {}
        self.dome_line = 0
        self.streams = []


def quoted(word):
    """A word for a sentence: its first 20 characters that can be printed."""
    shown = "".join(c if c.isprintable() else "?" for c in word[:20])
    return "'%s%s'" % (shown, ".." if len(word) > 20 else "")


def listed(words):
    """Words with commas, and an 'and' before the last."""
    if not words:
        return "none"
    return " and ".join(filter(None, [", ".join(words[:-1]), words[-1]]))


def few(words, most=10):
    """The first of these words, and how many more there are."""
    if len(words) <= most:
        return listed(words)
    return "%s and %d more" % (", ".join(words[:most]), len(words) - most)


def numbers_in(words, needed, more, say):
    """The numbers of KEY=NUMBER words, or None; what is wrong goes to say."""
    found = {}
    wrong = False
    for word in words:
        key, equals, value = word.partition("=")
        if not equals or key not in needed + more:
            say("%s is none of %s" % (quoted(word), listed(
                [k + "=NUMBER" for k in needed + more])))
        elif key in found:
            say("%s= is given twice: leave one out" % key)
        elif not NUMBER.match(value):
            say("%s= takes a number of one to nine digits, and has %s"
                % (key, quoted(value)))
            found[key] = 0
        else:
            found[key] = int(value)
            continue
        wrong = True
    missing = [key + "=" for key in needed if key not in found]
    if missing:
        say("%s missing: write each with a number after it" % (
            listed(missing) + (" is" if len(missing) == 1 else " are")))
    return None if wrong or missing else found


class Reader:
    """Takes the lines one by one, and keeps the show and its faults."""

    def __init__(self):
        self.show = Show()
        self.faults = []
        self.names = {}
        self.streams = 0

    def fault(self, line, text):
        self.faults.append((line, text))

    def take(self, line, text):
        words = text.partition("#")[0].split()
        if not words:
            return
        if words[0] == "dome":
            self.take_dome(line, words[1:])
        elif words[0] == "stream":
            self.take_stream(line, words[1:])
        else:
            self.fault(line, "a line begins with dome, stream or #, and this "
                       "one with %s" % quoted(words[0]))

    def take_dome(self, line, words):
        show = self.show
        if show.dome_line:
            self.fault(line, "the dome stands on line %d already: leave one "
                       "out" % show.dome_line)
            return
        show.dome_line = line
        show.dome = numbers_in(words, DOME, (),
                               lambda text: self.fault(line, text)) or {}

    def take_stream(self, line, words):
        self.streams += 1
        if self.streams == MOST_STREAMS + 1:
            self.fault(line, "a show has at most %d streams, and this is one "
                       "more: leave some out" % MOST_STREAMS)
        if not words or "=" in words[0]:
            self.fault(line, "a stream has a name before its numbers, as in "
                       "stream main from=0 to=63 share=4")
            return
        name, rest = words[0], words[1:]
        if not NAME.match(name):
            self.fault(line, "a name has letters, digits, - and _, and this "
                       "is %s" % quoted(name))
        elif name in self.names:
            self.fault(line, "the name %s stands on line %d already: give "
                       "each stream its own" % (name, self.names[name]))
        else:
            self.names[name] = line
        numbers = numbers_in(rest, STREAM, MORE,
                             lambda text: self.fault(line, text))
        if numbers:
            self.show.streams.append(Stream(name, line, numbers))


def read(data):
    """The show of a file's bytes, of which one more than a show has are
    enough; and its faults: pairs of a line's number and a sentence."""
    reader = Reader()
    if len(data) > MOST_BYTES:
        reader.fault(data.count(b"\n") + 1, "here the file has more than %s "
                     "bytes, and a show has at most these: is it one?"
                     % format(MOST_BYTES, ","))
        return reader.show, reader.faults
    for line, raw in enumerate(data.split(b"\n"), 1):
        try:
            reader.take(line, raw.decode("utf-8"))
        except UnicodeDecodeError:
            reader.fault(line, "it is no text in UTF-8: is it a show?")
    if not reader.show.dome_line:
        reader.fault(1, "the file has no line that begins with dome: write "
                     "one, as in dome F=16 W=4 N=255")
    return reader.show, sorted(reader.faults, key=lambda fault: fault[0])

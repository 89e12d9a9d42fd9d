"""A week as text: a line for each showing, as in mon 20:00-21:15 evening.plan.
Plans are files beside the text, each of which is checked."""

import os

from dome.show_file import quoted
from plan import files, taken, text, times
from plan.ends import DONE, NOT_DONE, REFUSED, Trouble, called

MOST_BYTES = 65536
A_SHOWING = ("a showing is a day, two times and a plan file, as in mon "
             "20:00-21:15 evening.plan or sat 23:00-sun 01:00 late.plan, and "
             "this line has %s")


class Entry:
    """A showing: from a minute to another, and what runs; of a text also its
    line."""

    def __init__(self, start, end, what, line=None):
        self.start, self.end = start, end
        self.what = what
        self.line = line

    def span(self):
        return "from %s to %s" % (times.called(self.start),
                                  times.called(self.end))


def entry_of(words, line):
    """The entry of a line's words, or None.  Where the end names no day it is
    the start's."""
    if len(words) not in (3, 4) or words[1].count("-") != 1:
        return None
    day, span, *last, what = words
    time, end = span.split("-")
    until = (end, *last) if last else (day, end)
    start, end = times.minute_of(day, time), times.minute_of(*until)
    return None if start is None or end is None else Entry(start, end, what,
                                                           line)


class WeekFile:
    """The entries of a text, the bytes of their plans, and sentences on lines
    and plans that are none, each with its line."""

    def __init__(self, name):
        self.name = name
        self.entries = []
        self.sentences = []
        data = files.read_up_to(name, MOST_BYTES + 1, "a week's text")
        if len(data) > MOST_BYTES:
            raise Trouble("%s has more than 65,536 bytes, and a week's text "
                          "has at most these" % called(name))
        for line, read in text.lines_of(data):
            self.take(line, read)
        self.plans = list(self.read_plans())
        self.status = NOT_DONE if self.sentences else DONE

    def take(self, line, read):
        words = None if read is None else read.partition("#")[0].split()
        if words == []:
            return
        entry = words and entry_of(words, line)
        if entry:
            self.entries.append(entry)
        else:
            self.sentences.append((line, A_SHOWING % (
                quoted(read.strip()) if words else "no text")))

    def read_plans(self):
        """Each plan file once, with the first line that names it; what can't
        be read is said."""
        first = {}
        for entry in self.entries:
            first.setdefault(entry.what, entry.line)
        for what, line in first.items():
            try:
                yield line, what, files.read(self.path_of(what))
            except Trouble as trouble:
                self.sentences.append((line, str(trouble)))

    def path_of(self, what):
        """Beside the text, unless it is a whole path; - is a file, too."""
        folder = os.path.dirname(self.name) or "." * (what == "-")
        return os.path.join(folder, what)

    def check_plans(self):
        """Adds a sentence for each plan that is refused or no plan."""
        for line, what, data in self.plans:
            try:
                found, status = taken.take(data, what)[0].lines, REFUSED
            except Trouble as trouble:
                found, status = trouble.sentences, trouble.status
            if found:
                self.status = max(self.status, status)
                self.sentences.append((line, found[0] + self.more(found,
                                                                  what)))

    def more(self, found, what):
        """Where the rest of what is wrong is told."""
        return "" if len(found) == 1 else "; ./plan --check '%s' says more" % (
            self.path_of(what))

    def lines(self):
        return ["%s: line %d: %s" % (called(self.name), *sentence)
                for sentence in sorted(self.sentences)]

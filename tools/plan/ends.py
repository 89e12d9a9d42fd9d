"""How ./plan ends: exit statuses, sentences, and output that must be whole."""

import os
import sys

DONE, REFUSED, NOT_DONE = range(3)      # exit statuses
MORE = "; ./plan --help says more"
MOST_SENTENCES = 20                     # of faults that are told one by one


class Trouble(Exception):
    """Sentences: why nothing is done."""

    def __init__(self, *sentences, status=NOT_DONE):
        super().__init__(sentences[0])
        self.sentences = sentences
        self.status = status


class Unread(Trouble):
    """A text that can't be read, by the file's name: what is wrong, pairs of
    a line, 0 for the whole text, and a sentence."""

    def __init__(self, name, found):
        super().__init__(*first_ones(["%s: %s%s" % (
            called(name), "line %d: " % line if line else "", sentence)
            for line, sentence in found]))
        self.found = found


def lines_object(found):
    """What is wrong with the lines of a text, for programs."""
    return [{"line": line or None, "says": sentence}
            for line, sentence in found]


def shown(text):
    """A word for a sentence, with ? for what can't be printed."""
    return "".join(c if c.isascii() and c.isprintable() else "?"
                   for c in text)


def called(name):
    """A file in a sentence."""
    return "standard input" if name == "-" else "'%s'" % shown(name)


def first_ones(sentences, most=MOST_SENTENCES):
    """The first sentences, and how many more there are."""
    left = len(sentences) - most
    return sentences[:most] + ["and %d more" % left] * (left > 0)


def say(sentences):
    """Each on a line of standard error, if that takes any."""
    try:
        for sentence in sentences:
            print("plan: " + sentence, file=sys.stderr, flush=True)
    except OSError:
        pass


def keep_standard():
    """Leaves 0 to 2 to standard input and output: where one of them is closed
    no other file may take its number."""
    while os.open(os.devnull, os.O_RDWR) <= 2:
        pass


def write_output(data, what):
    """Writes bytes to standard output; what they are is for the sentence."""
    left = memoryview(data)
    try:
        while left:
            left = left[os.write(1, left):]
    except OSError:
        raise Trouble("output was lost: %s" % what) from None

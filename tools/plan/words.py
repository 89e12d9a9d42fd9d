"""Words of a command line: options taken off, and numbers."""

import re

from plan.ends import Trouble, shown

NUMBER = re.compile("[0-9]+")
DIGITS = 9


def given(count):
    return "1 is given" if count == 1 else "%d are given" % count


def is_number(word):
    return bool(NUMBER.fullmatch(word))


def number_of(word):
    if not is_number(word):
        raise Trouble("'%s' is no number; ./plan --help says which are asked "
                      "for" % shown(word))
    if len(word) > DIGITS:
        raise Trouble("'%s' has more than nine digits" % shown(word))
    return int(word)


def numbers_of(words):
    return [number_of(word) for word in words]


class Options:
    """What is asked for: the way, its words, and the options --json and
    --out, which may stand anywhere."""

    def __init__(self, words):
        self.json = False
        self.out = None
        self.way = None
        self.words = []
        left = list(words)
        while left:
            self.take(left.pop(0), left)

    def take(self, word, left):
        if word == "--json":
            self.json = True
        elif word == "--out":
            if not left or self.out is not None:
                raise Trouble("--out takes the file to write, once, as in "
                              "--out show.plan; ./plan --help says more")
            self.out = left.pop(0)
        elif self.way is None and not self.words and word.startswith("-"):
            self.way = word
        else:
            self.words.append(word)

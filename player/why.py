#!/usr/bin/env python3
"""Prints player/why.c, the sentences of the refusals, from docs/REFUSALS.md:

    python3 player/why.py >player/why.c.new && mv player/why.c.new player/why.c

A number's sentence is its row: when it is given, and what to do.  Where lends
have a row of their own, that follows.
"""

import sys
from pathlib import Path
from textwrap import wrap

sys.dont_write_bytecode = True
sys.path.insert(0, str(Path(__file__).resolve().parents[1] / "tools"))

from show.refusals import refusal, rows     # noqa: E402

HEAD = """\
/* The sentences of the refusals. It is made from docs/REFUSALS.md: `python3 player/why.py` prints it. */
#include "nazgolv.h"

static const char *const sentences[] = {
    "it is no refusal: the call is granted",
"""
FOOT = """\
};

const char *nazgolv_why(uint32_t number)
{
    return number < sizeof sentences / sizeof *sentences
        ? sentences[number] : "there is no such refusal";
}
"""


def sentence(number, known):
    """What a number stands for, whichever call it is of."""
    of_calls = [refusal(number, kind, known) for kind in ("request", "lend")]
    texts = ["%s; what to do: %s" % (row.when, row.what_to_do)
             for row in of_calls]
    return "; or ".join(dict.fromkeys(texts)).replace("`", "")


def literal(text):
    """A C string over several lines."""
    pieces = wrap(text, 100, drop_whitespace=False)
    return "\n".join('    "%s"' % piece.replace("\\", "\\\\").replace(
        '"', '\\"') for piece in pieces)


def main():
    known = rows()
    if sorted(known) != list(range(1, len(known) + 1)):
        sys.exit("player/why.py: docs/REFUSALS.md is missing, or it lacks "
                 "a number: %s" % sorted(known))
    print(HEAD, end="")
    for number in sorted(known):
        print("    /* %d */\n%s," % (number, literal(sentence(number, known))))
    print(FOOT, end="")


if __name__ == "__main__":
    main()

"""docs/C.md, the header and the manual: the programs that they show are those
of the tree, and print what the page says."""

import re
from functools import partial
from textwrap import dedent, indent

from front_door.command import ROOT, start, trouble
from front_door.man_pages import plain
from front_door.pages import page
from images import plays

EXAMPLES = {"C": ROOT / "player/example.c",
            "Rust": ROOT / "bindings/rust/example.rs",
            "Python": ROOT / "bindings/python/example.py",
            "Sending ahead": ROOT / "player/ahead.c"}
AROUND = """\
#include <stdio.h>
#include "nazgolv.h"

static const uint8_t plan[] = {
    20, 0, 2, 0, 12, 0, 4, 0, 2, 0, 4, 0, 2, 2, 1, 9, 2, 2, 2, 9};

int main(void)
{
%s    return 0;
}
"""
PLAYED = """\
#include <stdio.h>
#include "nazgolv.h"

static const uint8_t plan[] = {
    20, 0, 2, 0, 12, 0, 4, 0, 2, 0, 4, 0, 2, 2, 1, 9, 2, 2, 2, 9};
static const uint8_t records[] = {%s};
static uint8_t image[NAZGOLV_IMAGE_MAX];

static void answer(uint64_t result)
{
    printf("%%u %%#x\\n", (unsigned)NAZGOLV_REFUSAL(result),
           (unsigned)NAZGOLV_VALUE(result));
}

int main(void)
{
    size_t i;
    nazgolv_fresh(plan, sizeof plan, image, sizeof image);
    {
%s    }
    return 0;
}
"""


def blocks(text):
    """The indented code of a text, each block as it stands."""
    found = re.findall(r"(?:^    .*\n(?:\n*(?=    ))?)+", text, re.MULTILINE)
    return [dedent(block) for block in found]


def under(heading):
    """What stands under a heading of docs/C.md."""
    text = page("docs/C.md").partition("# %s\n" % heading)[2]
    return re.split(r"^#+ ", text, flags=re.MULTILINE)[0]


def printed():
    """What the example prints, in each language."""
    return blocks(under("What they print"))[0].encode()


def as_in_the_tree(name):
    """A program of the page is the file, to the letter."""
    path = EXAMPLES[name]
    return path.read_text() not in blocks(under(name)) and (
        "docs/C.md has another %s" % path.name)


def header_example():
    """The lines of the header's first comment."""
    comment = page("include/nazgolv.h").partition("*/")[0]
    return dedent("\n".join(re.findall(r"^ \*(     .*)$", comment.partition(
        "What a caller owes")[0], re.MULTILINE))) + "\n"


def in_the_header(build):
    """It asks for the first slot after the current one: rule 6.2."""
    text = AROUND % indent(header_example(), "    ")
    return prints(build, "header_example", text, b"position 1\n")


def in_the_manual():
    text = page("docs/man/nazgolv.3").partition(".SH EXAMPLES\n.nf\n")[2]
    found = dedent(plain(text).partition(".fi")[0])
    return found != header_example() and "another example: %s" % found


def prints(build, name, text, output):
    """What is wrong with what a C program prints, or None."""
    path, wrong = build(name, text)
    return wrong or trouble(start([path]), output=output)


def sending_ahead(build):
    return prints(build, "sending_ahead", EXAMPLES[
        "Sending ahead"].read_text(), blocks(under("Sending ahead"))[
        1].encode())


def many_calls(build):
    """The lines on the page, with README's calls and results that were worked
    out by hand: rules 12.8 and 13.6."""
    calls, count = plays.CALLS[:35], 7
    text = PLAYED % (", ".join(map(str, calls)), indent(
        blocks(under("Many calls by one"))[0], "        "))
    output = "".join("%d %s\n" % (result >> 32, hex(result & 0xFFFFFFFF)
                                  if result & 0xFFFFFFFF else "0")
                     for result in plays.RESULTS[:count])
    return prints(build, "many_calls", text, output.encode())


def tests(build):
    yield "C: the lines on many calls", partial(many_calls, build)
    for name in EXAMPLES:
        yield ("C: docs/C.md has the example, " + name,
               partial(as_in_the_tree, name))
    yield "C: the example of the header", partial(in_the_header, build)
    yield "C: the example of man nazgolv", in_the_manual
    yield "C: the example of sending ahead", partial(sending_ahead, build)

"""How much stack the exports take, against what is told of it."""

import re
import subprocess

from front_door.command import ROOT
from front_door.pages import page, table

SOURCE = ROOT / "tests/images/stack.c"
FLIGHT = ROOT / "flights/sparse"        # it makes calls of every sort
SLACK = 200                             # bytes that a figure may be too high
AT_MOST = re.compile(r"a call up to ([\d,]+) bytes of stack")
IN_HEADER = re.compile(r"^ \*  +(nazgolv_\w+) +([\d,]+)$", re.MULTILINE)


def number(text):
    return int(text.replace(",", ""))


def measured(program):
    """The bytes of each export."""
    with FLIGHT.open("rb") as calls:
        done = subprocess.run([program], stdin=calls, capture_output=True,
                              check=True)
    return {name: int(size) for name, size in
            map(str.split, done.stdout.decode().splitlines())}


def told():
    """The bytes that docs/PROVED.md has for each."""
    rows = table(page("docs/PROVED.md"), "Program or call")
    return {name.strip("`"): number(stack.partition(" bytes")[0])
            for name, stack in rows if name.startswith("`nazgolv_")}


def wrong_figures(program):
    """What is wrong with the page's figures and the header's, or None."""
    taken, page_has = measured(program), told()
    if len(taken) < 6 or taken.keys() != page_has.keys():
        return "%s, and the page has %s" % (sorted(taken), sorted(page_has))
    wrong = ["%s takes %d bytes" % (name, size)
             for name, size in taken.items()
             if not size <= page_has[name] <= size + SLACK]
    header_has = {name: number(size) for name, size
                  in IN_HEADER.findall(page("include/nazgolv.h"))}
    if header_has != page_has:
        wrong.append("the header has %s" % header_has)
    most = AT_MOST.findall(page("docs/C.md"))
    if [number(each) for each in most] != [max(page_has.values())]:
        wrong.append("docs/C.md has %s" % most)
    return "; ".join(wrong) or None

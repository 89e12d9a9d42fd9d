"""How much stack the programs take: what docs/PROVED.md says of it holds, from
above and from below."""

import re

from front_door.command import ROOT, start
from front_door.pages import page, table

ABOVE, BELOW = 16, 32           # KB with which it has to suffice, or not
QUESTIONS = {"domeplan": b"count 4 2\n",
             "domeshow": b"show 4 2 8 0 1 1 2 3\n"}
# Programs that tests/run is not started with.
OTHERS = {name: ROOT / "target/bin" / name for name in ("domeshow",
                                                        "dometrace")}
LOST = re.compile(r"under `ulimit -s (\d+)` it ends by a signal and has "
                  r"written nothing$")


def rows():
    return [(name.strip("`"), stack) for name, stack in
            table(page("docs/PROVED.md"), "Program or call") if " KB" in stack]


def told():
    """The KB that the page has for each program."""
    return {name: int(stack.partition(" KB")[0]) for name, stack in rows()}


def input_of(name):
    return QUESTIONS.get(name) or (ROOT / "flights/listing").read_bytes()


def with_stack(program, kilobytes, data):
    """How it ends with so much stack, and no environment on it."""
    return start(["/bin/sh", "-c", 'ulimit -s "$1" && exec "$2"', "sh",
                  str(kilobytes), program], input=data, env={})


def wrong_figure(name, program):
    """What is wrong with what is told of a program, or None."""
    data, stack = input_of(name), told()[name]
    right = start([program], input=data).output
    enough = with_stack(program, stack + ABOVE, data)
    if enough.status or enough.output != right:
        return "with %d KB it ends with %d" % (stack + ABOVE, enough.status)
    less = with_stack(program, stack - BELOW, data)
    return less.status >= 0 and "it does with %d KB" % (stack - BELOW)


def wrong_end(programs):
    """The page says of a program how it ends with too little, and it does."""
    found = [(name, LOST.search(stack)) for name, stack in rows()]
    found = [(name, limit.group(1)) for name, limit in found if limit]
    for name, limit in found:
        ended = with_stack(programs[name], limit, input_of(name))
        if ended.status >= 0 or ended.output:
            return "%s with %s KB: status %d, %d bytes" % (
                name, limit, ended.status, len(ended.output))
    return not found and "it says so of no program"


def all_programs(programs):
    return told().keys() != programs.keys() and "told of: %s" % sorted(told())


def tests(programs):
    programs = {**programs, **OTHERS}
    yield "docs: proved, the stack of all programs", (
        lambda: all_programs(programs))
    yield ("docs: proved, a program with too little stack ends as told",
           lambda: wrong_end(programs))
    for name in sorted(programs):
        yield ("docs: proved, the stack of %s" % name,
               lambda name=name: wrong_figure(name, programs[name]))

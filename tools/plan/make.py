"""A plan file made of numbers or of a text, and a text of a plan file: to
standard output, or to a file that only a plan that passes replaces."""

import os

from plan import files, taken, text
from plan.ends import DONE, REFUSED, Trouble, called, say, write_output


def put(out, data, what):
    """Writes bytes where they are to go."""
    if out in (None, "-"):
        write_output(data, what)
    else:
        files.write(out, data)
        say(["%s is written" % called(out)])


def refuse(lines, out):
    """Says why nothing is written, and what became of the file."""
    say(lines)
    if out not in (None, "-"):
        say(["%s is not written%s" % (called(out), ": what was there is there "
                                      "still" if os.path.exists(out)
                                      else "")])
    return REFUSED


def plan_file(plan, name, out, example):
    """Writes the plan file of a plan; the command that does it right stands
    in the sentence for a terminal."""
    found, data = taken.of_numbers(plan, name)
    if not found.passes():
        return refuse(found.lines, out)
    if out in (None, "-") and os.isatty(1):
        raise Trouble("a plan file is bytes, and standard output is a "
                      "terminal: send it to a file, as in " + example)
    put(out, data, "the plan file is not whole")
    return DONE


def text_file(data, name, out):
    """Writes the text of a plan file, or of a text, laid out anew."""
    found, _ = taken.take(data, name)
    if not found.passes():
        return refuse(found.lines, out)
    put(out, text.written(found.plan).encode(), "the text is not whole")
    return DONE

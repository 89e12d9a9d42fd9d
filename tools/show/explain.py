"""python3 explain.py [--summary] [--allcalls] PROGRAM NAME: each call of the
file that standard input has, with its answer in words as they come, and a
summary; with --summary the summary alone.  PROGRAM is dometrace, and NAME is
what sentences call the input.  ./play --explain and --summary start it.

Exit status: 0, or 1 where the plan is refused; 2 where nothing was played; 3
where the output is not whole.
"""

import sys

from ends import write_output
from following import follow
from paragraphs import INDENT, filled, paragraph
from refusals import rows
from summary import Summary
from telling import Telling
from words import refused_with

OPTIONS = ("--summary", "--allcalls")


def refused_page(number):
    """The paragraph for a plan that is refused."""
    more = "; a text for tools/calls begins with the word plan"
    return paragraph("  P %d" % number, "the plan is %s%s" % (
        refused_with(number, "plan", rows()), more if number == 1 else ""))


def summary_page(summary, indent=INDENT):
    """The lines of a summary."""
    said = ""
    for line in summary.lines():
        deep = indent + 4 * line.startswith(" ")
        said += filled(" " * deep, line.lstrip(), deep + 4)
    return said


def main(words):
    options = {word for word in words if word in OPTIONS}
    program, name = [word for word in words if word not in OPTIONS]
    all_calls = "--allcalls" in options

    def write(text):
        write_output("play", text.encode())

    def refused(_, number):
        write(refused_page(number))
        sys.exit(1)
    if "--summary" in options:
        summary = follow(program, name, all_calls, Summary, refused)
        write(summary_page(summary, 0))
        return
    told = follow(program, name, all_calls, lambda plan: Telling(plan, write),
                  refused, bool(sys.stdout) and sys.stdout.isatty())
    write("\nSummary\n" + summary_page(told.summary))


if __name__ == "__main__":
    main(sys.argv[1:])

"""Plan files made, printed and checked, and a show editor's questions in
words.  ./plan --help says how it is started; the folder plan/ has what it
does, and domeplan what is right."""

import json
import os
import sys

from plan import (
    check, files, fits, layers, make, mesh, plans, taken, week_asked)
from plan.ends import (
    MORE, NOT_DONE, Trouble, Unread, called, keep_standard, lines_object, say,
    shown, write_output)
from plan.program import Unbuilt, build
from plan.report import Report, verdict
from plan.words import Options, given, numbers_of


def one_file(options):
    if len(options.words) != 1:
        raise Trouble("%s takes one file, and %d are named%s" % (
            options.way, len(options.words), MORE))
    return options.words[0]


# ---- what is written

def make_of_numbers(options):
    if len(options.words) == 1 and os.path.isfile(options.words[0]):
        raise Trouble("'%s' is no number: --make makes a plan file of a text, "
                      "and --read prints a plan%s" % (
                          shown(options.words[0]), MORE))
    numbers = numbers_of(options.words)
    if not plans.fits_flows(len(numbers)):
        raise Trouble("the numbers are F, W, N and then four for each flow, "
                      "and %s%s" % (given(len(numbers)), MORE))
    build()
    return make.plan_file(
        plans.of_numbers(numbers), None, options.out,
        "./plan %s >show.plan" % " ".join(options.words))


def make_of_text(options):
    name = one_file(options)
    data = files.read(name, "a plan's text")
    build()
    plan = taken.plan_of_text(data, name)
    return make.plan_file(plan, name, options.out,
                          "./plan --make %s --out show.plan" % called(name))


def text_of_file(options):
    name = one_file(options)
    data = files.read(name)
    build()
    return make.text_file(data, name, options.out)


# ---- what is printed

def of_a_file(report, lost="the plan is not printed whole"):
    """A way that reports on the plan of a file."""
    def way(options):
        name = one_file(options)
        data = files.read(name)
        build()
        return report(taken.take(data, name)[0]), lost
    return way


def fits_report(found):
    if found.plan is None:
        return check.read_report(found)
    return fits.Fits(found).report()


def of_the_mesh(options):
    numbers = numbers_of(options.words)
    if len(numbers) < 4 or len(numbers) % 3 != 1:
        raise Trouble("--mesh takes F and then a source, a destination and a "
                      "share for each stream, and %s%s" % (
                          given(len(numbers)), MORE))
    build()
    return mesh.report(numbers[0], mesh.of_numbers(numbers[1:])), \
        "the mesh is not printed whole"


def of_the_week(options):
    asked = week_asked.taken(options.words)
    build()
    asked.look()
    return asked.report(), "the programme is not printed whole"


def at_a_time(options):
    minute = week_asked.minute_of(options.words)
    week_asked.some_week(options.words)
    asked = week_asked.taken(options.words)
    build()
    asked.look()
    return asked.report_at(minute), "what runs is not printed"


def of_layers(options):
    asked = layers.Extras(options.words)
    build()
    return asked.report(), "the choice is not printed whole"


def of_counts(options):
    asked = layers.asked_count(options.words)
    build()
    return layers.count_report(*asked), "the count is not printed"


WRITES = {None: make_of_numbers, "--make": make_of_text,
          "--text": text_of_file}
PRINTS = {"--read": of_a_file(check.read_report),
          "--check": of_a_file(check.check_report),
          "--fits": of_a_file(fits_report), "--mesh": of_the_mesh,
          "--week": of_the_week, "--at": at_a_time, "--extras": of_layers,
          "--count": of_counts}


def check_options(options, closed):
    """Ends where options don't go together, or output has nowhere to go."""
    way = options.way
    if way not in WRITES and way not in PRINTS:
        raise Trouble("there is no option '%s'; ./plan --help says what there "
                      "is" % shown(way))
    if way is None and options.words[:1] in ([], [""]):
        raise Trouble("the numbers of a plan are missing; ./plan --help says "
                      "which are asked for")
    if way in WRITES and options.json:
        raise Trouble("--json goes with what is printed, and here a file is "
                      "made" + MORE)
    if way in PRINTS and options.out is not None:
        raise Trouble("--out goes with numbers, --make and --text: send what "
                      "%s prints to a file with >" % way)
    if options.out not in (None, "-"):
        files.check_out(options.out, options.words[0] if way and options.words
                        else None)
    elif closed:
        raise Trouble("standard output is closed: nothing can be written")


def unread_report(unread):
    """The object of a text that can't be read."""
    return Report([], verdict(NOT_DONE, lines=lines_object(unread.found)),
                  status=NOT_DONE), "the object is not printed whole"


def reported(options):
    try:
        return PRINTS[options.way](options)
    except Unread as unread:
        if not options.json:
            raise
        return unread_report(unread)


def printed(options):
    report, lost = reported(options)
    lines = [json.dumps(report.numbers, indent=1)] if options.json else (
        report.lines)
    if lines:
        write_output("".join(line + "\n" for line in lines).encode(), lost)
    if not options.json:
        say(report.errors)
    return report.status


def main(words):
    closed = sys.stdout is None
    keep_standard()
    options = Options(words)
    check_options(options, closed)
    if options.way in WRITES:
        return WRITES[options.way](options)
    return printed(options)


def show_error(sentences, status):
    """An object in place of the one that was asked for."""
    data = json.dumps(verdict(status, error="\n".join(sentences)), indent=1)
    try:
        write_output(data.encode() + b"\n", "")
    except Trouble:
        pass                            # standard output takes nothing


def ended(words):
    """The exit status; where nothing is done a sentence says why, and for
    programs an object too."""
    try:
        return main(words)
    except Unbuilt as trouble:
        sentences, status = trouble.sentences, trouble.status
    except Trouble as trouble:
        sentences, status = trouble.sentences, trouble.status
        say(sentences)
    except KeyboardInterrupt:
        sentences, status = ["broken off"], NOT_DONE
        say(sentences)
    if "--json" in words and not PRINTS.keys().isdisjoint(words):
        show_error(sentences, status)
    return status


if __name__ == "__main__":
    sys.exit(ended(sys.argv[1:]))

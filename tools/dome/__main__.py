"""./dome, behind its shell script: check, plans, play and page of a show
file.  Exit status: 0 the show passes, and all is written; 1 it is refused, or
a bound was passed; 2 neither, and a sentence says why."""

import signal
import sys
from pathlib import Path

from dome import (
    check, page, planned, plans, play, proved, refused, run_options, show_file,
    told)

sys.path.insert(0, str(proved.BIN.parents[1] / "tools/show"))
from ends import read_file, stop, write_output  # noqa: E402

MOST_SENTENCES = 100


def say(text):
    print("dome: " + text, file=sys.stderr)


def say_all(path, found):
    """A sentence for each pair of a line's number, 0 for none, and a text."""
    for line, text in found[:MOST_SENTENCES]:
        say("%s: %s%s" % (path, "line %d: " % line if line else "", text))
    if len(found) > MOST_SENTENCES:
        say("%s: and %d more faults" % (path, len(found) - MOST_SENTENCES))


def take(path):
    """The show of a file with its plans, or the end."""
    show, faults = show_file.read(
        read_file("dome", path, show_file.MOST_BYTES + 1))
    name = "standard input" if path == "-" else "'%s'" % path
    if faults:
        say_all(name, faults)
        sys.exit(2)
    answers = planned.Planned(show)
    found = refused.faults(answers)
    if found:
        say_all(name, [(fault.line, fault.text) for fault in found])
        for text in refused.to_do(found):
            say(text)
        sys.exit(1)
    return answers


def do_check(words):
    if len(words) != 1:
        stop("dome", 2, "check takes one show file; ./dome --help says more")
    write_output("dome", ("\n".join(check.lines(take(words[0]))) + "\n")
                 .encode())


def do_plans(words):
    if len(words) != 2:
        stop("dome", 2, "plans takes a show file and a folder; ./dome --help "
             "says more")
    answers = take(words[0])
    try:
        count = plans.write(answers, words[1])
    except OSError as wrong:
        stop("dome", 2, "'%s' can't be written: %s" % (
            words[1], wrong.strerror))
    say("%d plan%s and index.txt are written to '%s'" % (
        count, "s"[count == 1:], words[1]))
    others = plans.of_no_link(answers, words[1])
    if others:
        say("'%s' has %s of links that this show doesn't use: %s; %s left "
            "alone, and a board that is given one plays another show" % (
                words[1], "a plan" if len(others) == 1 else "plans",
                show_file.few(others), "it is" if len(others) == 1 else
                "they are"))


def over_itself(options):
    """What is wrong where the page would go over the show, or None."""
    source, *outs = options.files
    if outs and Path(outs[0]).is_file() and Path(source).exists() and (
            Path(outs[0]).samefile(source)):
        return "the page would be written over '%s', which it is made from" % (
            source)
    return None


def take_run(words, files):
    """The options, and a show and its dome after the run."""
    options = run_options.read(words, files)
    if isinstance(options, str):
        stop("dome", 2, options)
    answers = take(options.path)
    wrong = run_options.unknown(options, answers) or over_itself(options)
    if wrong:
        stop("dome", 2, wrong)
    return options, answers, play.played(answers, options)


def end(dome, options):
    """Ends with 1 where a bound was passed."""
    found = told.passed(dome, options.slots)
    for text in found:
        say(text)
    sys.exit(1 if found else 0)


def do_play(words):
    options, _, dome = take_run(words, 1)
    write_output("dome", ("\n".join(told.lines(dome, options)) + "\n")
                 .encode())
    end(dome, options)


def put_page(out, data):
    """Whole where OUT is a file or none yet, as it comes where it is a device
    or a pipe."""
    path = Path(out).resolve()
    if path.exists() and not path.is_file():
        with open(path, "wb") as place:
            place.write(data)
    else:
        plans.put(path, data)


def do_page(words):
    options, answers, dome = take_run(words, 2)
    out, data = options.files[1], page.text(answers, dome, options).encode()
    if out == "-":
        write_output("dome", data)
        end(dome, options)
    try:
        put_page(out, data)
    except OSError as wrong:
        stop("dome", 2, "'%s' can't be written: %s" % (out, wrong.strerror))
    say("'%s' is written" % out)
    end(dome, options)


DO = {"check": do_check, "plans": do_plans, "play": do_play,
      "page": do_page}


def main(words):
    if not words or words[0] not in DO:
        stop("dome", 2, "the first word is none of check, plans, play and "
             "page; "
             "./dome --help says more")
    signal.signal(signal.SIGINT, signal.default_int_handler)
    try:
        DO[words[0]](words[1:])
    except proved.Broken as wrong:
        stop("dome", 2, str(wrong))
    except play.BrokenOff as broken:
        stop("dome", 2, str(broken))
    except KeyboardInterrupt:
        stop("dome", 2, "broken off")


if __name__ == "__main__":
    main(sys.argv[1:])

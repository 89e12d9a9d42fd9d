"""The man pages: as --help has it, with examples that are true."""

import re
import shutil
import subprocess

from driver.left_out import leave_out
from front_door.command import ROOT, start
from front_door.plan_tree import PlanTree
from front_door.tree import named
from simulator.questions import WORDS

COMMANDS = {"play": "play", "plan": "plan", "dome": "dome",
            "check-log": "check-log", "calls": "tools/calls"}
PAGES = ("domelink", "domeplan", *COMMANDS)
SECTIONS = ("NAME", "SYNOPSIS", "DESCRIPTION", "EXIT STATUS", "EXAMPLES",
            "SEE ALSO")
NOT_IN_HELP = {"--help"}        # who reads it has found it
OPTION = re.compile(r"(?<![\w-])--[a-z][a-z-]*")


# ---- a page taken apart

def plain(text):
    """Text without roff's escapes."""
    text = re.sub(r"\\f[A-Z]", "", text)
    return text.replace("\\-", "-").replace("\\e", "\\")


def page(name):
    return plain((ROOT / "docs/man" / (name + ".1")).read_text())


def section(name, title):
    return page(name).split(".SH %s\n" % title)[1].split("\n.SH ")[0]


def heads(text):
    """What each tagged paragraph is about, its macro left out."""
    return [re.sub(r'^\.\w+ |"', "", line)
            for line in re.findall(r"^\.TP\n(.*)$", text, re.MULTILINE)]


def blocks(text):
    """The lines that are set as they are, without their indent."""
    found = re.findall(r"^\.nf\n(.*?)^\.fi$", text, re.MULTILINE | re.DOTALL)
    return [re.sub("^    ", "", block, flags=re.MULTILINE) for block in found]


# ---- all pages

def complete(name):
    """A section for each, in their order, and none twice."""
    found = re.findall(r"^\.SH (.+)$", page(name), re.MULTILINE)
    wanted = [title for title in found if title in SECTIONS]
    return wanted != list(SECTIONS) and "sections %s" % found


def laid_out(name, section=1):
    """Without a warning."""
    done = subprocess.run(["groff", "-man", "-Tutf8", "-ww", "-z",
                           ROOT / "docs/man" / ("%s.%d" % (name, section))],
                          capture_output=True, text=True)
    return done.stderr[:300] or done.returncode and "groff failed"


# ---- pages of commands that have --help

def differing(found, wanted):
    return found != wanted and "%s for %s" % (found, wanted)


def help_of(name):
    """The words of --help."""
    return start([ROOT / COMMANDS[name], "--help"]).output.decode()


def options_of_help(name, text):
    """In the synopsis, too."""
    described = {option for head in heads(section(name, "OPTIONS"))
                 for option in OPTION.findall(head)}
    in_synopsis = set(OPTION.findall(section(name, "SYNOPSIS")))
    return differing(in_synopsis, described) or differing(
        described - NOT_IN_HELP, set(OPTION.findall(text)) - NOT_IN_HELP)


def statuses_of_help(name, text):
    """What --help says after 'Exit status' is numbers with what they mean."""
    after = text.split("Exit status")[1]
    return differing(set(heads(section(name, "EXIT STATUS"))),
                     set(re.findall(r"(?:^:|[;\n])\s*(\d)\s", after)))


def as_help(name):
    text = help_of(name)
    return options_of_help(name, text) or statuses_of_help(name, text)


def example_of_a_week(tree):
    """The last command of plan's examples, and what it prints."""
    commands, printed = blocks(section("plan", "EXAMPLES"))
    words = commands.splitlines()[-1].split()[1:]
    return differing(tree.start(*words).output.decode().splitlines(),
                     printed.splitlines())


# ---- the programs' pages

def questions():
    """Each word of domeplan has a paragraph, and no other has one."""
    found = [head.split()[0]
             for head in heads(section("domeplan", "QUESTIONS"))]
    return differing(sorted(found), sorted(word.decode() for word in WORDS))


def ran(command, name, program):
    """What a command of a page prints, with another path to its program."""
    command = command.replace("target/bin/" + name, str(program))
    return start(["sh", "-c", command]).output.decode()


def examples_of_domelink(programs):
    command, printed = blocks(section("domelink", "EXAMPLES"))
    return differing(ran(command, "domelink", programs["domelink"]), printed)


def examples_of_domeplan(programs):
    command, printed, asked, answered = blocks(section("domeplan",
                                                       "EXAMPLES"))
    program = programs["domeplan"]
    answers = start([program], input=asked.encode()).output.decode()
    return (differing(ran(command, "domeplan", program), printed)
            or differing(answers, answered))


def tests(programs):
    each = (complete, laid_out)
    if not shutil.which("groff"):
        leave_out("groff", "the layout of man pages", len(PAGES))
        each = (complete,)
    for name in PAGES:
        for test in each:
            yield ("man %s: %s" % (name, test.__name__.replace("_", " ")),
                   lambda name=name, test=test: test(name))
    for path in sorted((ROOT / "docs/man").glob("*.3")):
        if laid_out in each:
            yield ("man %s: laid out" % path.stem,
                   lambda name=path.stem: laid_out(name, 3))
    yield "man domeplan: questions", questions
    for test in (examples_of_domelink, examples_of_domeplan):
        yield ("man: " + test.__name__.replace("_", " "),
               lambda test=test: test(programs))
    for name in COMMANDS:
        yield "man %s: as help" % name, lambda name=name: as_help(name)
    yield from named(PlanTree, (example_of_a_week,), programs)

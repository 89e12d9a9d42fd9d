"""VERSION, the commands, the C header, the list of changes and the man pages
name one version."""

import re
import shutil

from front_door.calls_text import CallsTree
from front_door.check_log import LogTree
from front_door.command import ROOT, redirected, start, trouble
from front_door.plan_tree import PlanTree
from front_door.play_tree import PlayTree
from front_door.tree import named

VERSION = ROOT / "VERSION"
PARTS = ("MAJOR", "MINOR", "PATCH")


def text_of(name):
    return (ROOT / name).read_text(encoding="utf-8")


def version():
    return VERSION.read_text().rstrip("\n")


def headings():
    """The versions of the list of changes, in its order, as numbers."""
    found = re.findall(r"^## (\d+)\.(\d+)\.(\d+) \(\d{4}-\d\d-\d\d\): \S",
                       text_of("CHANGELOG.md"), re.MULTILINE)
    return [tuple(map(int, numbers)) for numbers in found]


# ---- files

def one_line():
    """Three numbers and a newline, nothing else."""
    text = VERSION.read_text()
    return not re.fullmatch(r"\d+\.\d+\.\d+\n", text) and repr(text)


def c_header():
    """As text and as numbers, each once."""
    header = text_of("include/nazgolv.h")
    expected = [('NAZGOLV_VERSION', '"%s"' % version())] + [
        ("NAZGOLV_VERSION_" + part, number)
        for part, number in zip(PARTS, version().split("."))]
    found = re.findall(r"^#define (NAZGOLV_VERSION\w*) (.+)$", header,
                       re.MULTILINE)
    return found != expected and "%s, and VERSION has %s" % (found, version())


def changes():
    """The newest version first, and the others in falling order."""
    found = headings()
    if ".".join(map(str, found[0])) != version():
        return "the first heading is of %s" % (found[0],)
    return (found != sorted(set(found), reverse=True)
            and "not in falling order: %s" % found)


def landings():
    """Each landing's note is named once."""
    text = text_of("CHANGELOG.md")
    notes = ["docs/landings/" + path.name
             for path in (ROOT / "docs/landings").glob("N*.md")]
    wrong = [note for note in notes if text.count("`%s`" % note) != 1]
    return wrong and "not once in CHANGELOG.md: " + ", ".join(wrong)


def man_pages():
    """The first line of each page."""
    pages = sorted((ROOT / "docs/man").glob("*.[13]"))
    wrong = [page.name for page in pages if '"Nazgolv %s"' % version()
             not in page.read_text().split("\n")[0]]
    return (wrong or not pages) and "another version: %s" % wrong


# ---- scripts

def release():
    """The first line of --version, where there is no git."""
    return "Nazgolv version %s, commit unknown\n" % version()


def version_comes_first(tree):
    shutil.copy(VERSION, tree.root)
    tree.only_tools()
    return trouble(tree.start("--version"), output=(
        release() + "kit unknown\nprogram target/bin/%s is built\n"
        % tree.crate).encode())


def version_is_a_line(tree):
    """Of a command that starts no program; it needs no python3."""
    shutil.copy(VERSION, tree.root)
    tree.only_tools()
    return trouble(tree.start("--version"), output=release().encode()) or (
        trouble(start(redirected(">&-", tree.command, "--version")), 3, b"",
                "output was lost: the version is not printed"))


def version_stands_alone(tree):
    """Another word ends it with 2; so does a word in front of it."""
    script = tree.script.split("/")[-1]
    for words in (("--version", "extra"), ("--version", "--version")):
        wrong = trouble(tree.start(*words), 2, b"", "%s: --version stands "
                        "alone, and 2 words are given" % script)
        if wrong:
            return "%s: %s" % (words, wrong)
    return (tree.start("extra", "--version").status != 2
            and "a word in front of it is taken")


def help_with_a_word(tree):
    """It is printed all the same."""
    page = tree.start("--help").output
    return trouble(tree.start("--help", "extra"), output=page) or (
        not page and "no page")


FILES = (one_line, c_header, changes, landings, man_pages)


def tests(programs):
    for test in FILES:
        yield "version: " + test.__name__.replace("_", " "), test
    for kind in (PlayTree, PlanTree, LogTree):
        yield from named(kind, (version_comes_first,), programs)
    yield from named(CallsTree, (version_is_a_line,), programs)
    for kind in (PlayTree, PlanTree, LogTree, CallsTree):
        yield from named(kind, (version_stands_alone, help_with_a_word),
                         programs)

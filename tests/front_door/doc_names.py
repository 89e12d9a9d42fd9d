"""Every name in backticks on a page is there: files and folders, and whatever
looks like a name (functions, definitions, theorems, crates, options, words of
lines) as a whole token of the sources."""

import re
from functools import lru_cache
from pathlib import Path

from front_door.command import ROOT
from front_door.pages import below

PAGES = ("README.md", "CONTRIBUTING.md", "tests/README.md",
         "docs/src/README.md")              # and docs/*.md
SOURCES = ("crates", "tests", "tools", "include", "player", "bindings",
           "bench", "docs/src", ".ci")
COMMANDS = ("play", "plan", "dome", "check-log", "crates.txt")
LEFT_OUT = {"must-fail"}                    # edits name what isn't there
ENDINGS = ("antt", "rt", "md", "py", "rs", "c", "h", "sh", "js", "css",
           "html", "svg", "txt", "edit", "1")
COMMENTS = {".antt": "--", ".rt": "//", ".rs": "//", ".c": "//"}
CODE = re.compile(r"`([^`\n]+)`")
NAME = re.compile(r"[^\W\d_][\w'-]*[\w']")      # two letters at least
INSIDE = re.compile(r"\w+(?:::\w+)+")           # of a crate, module or type
DECLARED = re.compile(r"\b(?:fn|struct|enum|const|type|mod) (\w+)"
                      r"|^ +(\w+)(?:\(.*\))?,$", re.MULTILINE)
FILE = re.compile(r"(?:[\w.*-]+/)*[\w.*-]+\.(?:%s)" % "|".join(ENDINGS))
FOLDER = re.compile(r"(?:[\w.*-]+/)+(?:[\w.*-]+)?")
HASH = re.compile(r"[0-9a-f]{7,}…?|rattle-kit-[\w-]+")

# Words that no source has, by whose they are.
ELSEWHERE = {
    "the kit": "fmt logic-built libraries-built trusted",
    "the shell": "ulimit",
}
# Names that are gone or never were: each has to be told.
GONE = ("LendChoice", "each-taker", "FlowFrom", "open_choice.py", "no_such()",
        "model/proofs/LendChoice.antt", "Link::lends", "credit::refusal",
        "link/source/", "crates/links", "TilesToCome.antt", "--no-such-word",
        "credit::take")
THERE = ("Link::lend", "credit::credit", "first_from", "some-taker",
         "late_rank()", "LendTurn.antt", "model/proofs/LendTurn.antt",
         "tests/", "./play -e", "link/specs/", "crates/NAME/specs/",
         "--timeline", "R 16", "1/2")


def pages():
    return sorted(ROOT.glob("docs/*.md")) + [ROOT / name for name in PAGES]


@lru_cache(maxsize=None)
def paths():
    """Each path of the tree from a slash on, folders with one at the end."""
    inside = [path for folder in (*SOURCES, "docs", "flights")
              for path in below(ROOT / folder)]
    return {"/%s%s" % (path.relative_to(ROOT), "/" if path.is_dir() else "")
            for path in [*inside, *ROOT.iterdir()]}


def is_path(word):
    """Whether a word is the end of a path, or that of a file without its
    ending; NAME stands for any part."""
    word = re.sub(r"^\./", "", word).replace("NAME", "*").rstrip("/")
    like = re.compile(r".*/%s(\.\w+|/)?" % re.escape(word).replace(
        r"\*", "[^/]*"))
    return any(like.fullmatch(path) for path in paths())


@lru_cache(maxsize=None)
def folders():
    """The names with which a path can begin."""
    return {path.strip("/").split("/")[-1] for path in paths()
            if path.endswith("/")}


def text_of(path):
    """What stands in a source, without lines of comment: they may speak of
    what is gone."""
    text = path.read_text(encoding="utf-8", errors="replace")
    mark = COMMENTS.get(path.suffix)
    return text if mark is None else "\n".join(
        line for line in text.splitlines()
        if not line.lstrip().startswith(mark))


@lru_cache(maxsize=None)
def names_by_file():
    """Each source with its names, and those of its path; not this file."""
    files = [path for folder in SOURCES for path in below(ROOT / folder)
             if path.is_file() and not LEFT_OUT & set(path.parts)]
    files += [ROOT / name for name in COMMANDS]
    files.remove(Path(__file__).resolve())
    return {path: set(NAME.findall(text_of(path)))
            | {path.stem, *path.relative_to(ROOT).parts} for path in files}


@lru_cache(maxsize=None)
def names():
    return set(" ".join(ELSEWHERE.values()).split()).union(
        *names_by_file().values())


def is_inside(word):
    """Whether a source of a crate uses a name with all its parts, or declares
    the last part and has the others."""
    *around, last = word.split("::")
    for path, found in names_by_file().items():
        if path.suffix == ".rt" and found.issuperset(around):
            text = text_of(path)
            if re.search(word + r"\b", text) or any(
                    last in each for each in DECLARED.findall(text)):
                return True
    return False


def missing_in(word):
    """What of a word in backticks is not there."""
    word = word.strip(",;:'\"()[]{}<>|=&")
    if word.startswith("target/") or HASH.fullmatch(word):
        return []                           # what is built; a commit
    if FILE.fullmatch(word) or (
            FOLDER.fullmatch(word) and word.split("/")[0] in folders()):
        return [] if is_path(word) else [word]
    if INSIDE.fullmatch(word):
        return [] if is_inside(word) else [word]
    return [name for name in NAME.findall(word) if name not in names()]


def missing(text):
    """The line's number and the name, of each that is not there."""
    return [(number, name) for number, line in
            enumerate(text.splitlines(), 1)
            for code in CODE.findall(line)
            for word in code.split() for name in missing_in(word)]


def on_page(path):
    lost = ["%s:%d: %s" % (path.relative_to(ROOT), number, name)
            for number, name in missing(path.read_text(encoding="utf-8"))]
    return lost and "not there: " + ", ".join(lost)


def gone_are_told():
    passed = [name for name in GONE if not missing("of `%s`\n" % name)]
    return passed and "not told: " + ", ".join(passed)


def others_are_not():
    told = missing(" ".join("`%s`" % name for name in THERE))
    return told and "told: %s" % ", ".join(name for _, name in told)


def tests(programs):
    yield "docs: names that are gone are told", gone_are_told
    yield "docs: names that are there are not told", others_are_not
    for path in pages():
        yield ("docs: names of %s" % path.relative_to(ROOT),
               lambda path=path: on_page(path))

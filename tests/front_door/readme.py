"""README.md is true: its size, commands, lines, names and pictures."""

import re
import shlex
from xml.etree import ElementTree

from edges import from_the_paper
from front_door.command import ROOT, start, trouble
from front_door.pages import code_lines, help_lacks, inline_code, page
from front_door.play_tree import in_trees
from front_door.progress import crates_below

MOST_BYTES = 9 * 1024
MOST_PICTURE = 200 * 1000       # bytes
GATE = "bash .ci/run"
SVG = "{http://www.w3.org/2000/svg}"
PNG = b"\x89PNG\r\n\x1a\n"
SHOWN = re.compile(r"[A-Z] |C  ")               # a line of the example


def text():
    return page("README.md")


def nine_kilobytes():
    size = len(text().encode())
    return size > MOST_BYTES and "%d bytes" % size


# ---- commands

def commands():
    """The three, as they are written."""
    lines = code_lines(text().partition("## Three commands")[2])
    return [line.partition("#")[0].strip() for line in lines
            if not SHOWN.match(line)]


def there_are_three():
    found = commands()
    return (len(found) != 3 or found[2] != GATE) and "%s" % found


def as_written(tree, line):
    """How a command of the page ends, and the files that it leaves."""
    known = set(tree.root.rglob("*"))
    ended = start(["sh", "-c", line], cwd=tree.root)
    return ended, sorted(path.name for path in
                         set(tree.root.rglob("*")) - known)


def play_says_the_lines(tree):
    """./play gives the answers of the example, each once, in this order."""
    ended, left = as_written(tree, commands()[0])
    said = re.findall(r"^  ([A-Z](?: \d+)?) ", ended.output.decode(),
                      re.MULTILINE)
    return trouble(ended) or left and "%s is left" % left or (
        said != from_the_paper.EDGES[0].lines and "it says %s" % said)


def play_writes_the_page(tree):
    """And says so in the words of README."""
    ended, left = as_written(tree, commands()[1])
    said = ended.errors.strip()
    return trouble(ended, 0, b"", "is written") or (
        left != ["dense.html"] and "%s is left" % left) or (
        said not in inline_code(text()) and said)


def the_gate_is_there():
    """It can't be started by a part of it."""
    return trouble(start(["bash", "-n", ROOT / GATE.split()[1]]))


def others_are_in_the_help():
    """Commands in a sentence, with options that their help has."""
    wrong = [help_lacks(shlex.split(code)) for code in inline_code(text())
             if code.startswith(("./", "tools/", "player/"))]
    return "; ".join(filter(None, wrong)) or None


# ---- what it says

def eight_lines():
    """The example's answers are those of the edge that lists them."""
    shown = [line.partition("  ")[0] for line in code_lines(text())
             if SHOWN.match(line)]
    right = from_the_paper.EDGES[0].lines
    return shown != right and "%s for %s" % (shown, right)


def ten_words():
    words = re.findall(r"\*\*([a-z -]+)\*\*",
                       text().partition("Ten words:")[2].partition("\n")[0])
    return len(set(words)) != 10 and "%s" % words


def crates_of_play():
    wanted = "%d crates" % len(crates_below("domelink"))
    return wanted not in text() and "it has to say: " + wanted


def demand_3_is_explained_first():
    """Its first mention says what it is."""
    first = re.search(r"[^\n]*[Dd]emand 3[^\n]*", text())
    return "is the name of the main claim" not in first.group() \
        and first.group()[:80]


def papers_are_not_cited():
    """By numbers that a reader can't look up."""
    found = re.findall(r"[Dd]ocuments? 0\d|\bN\d+\b", text())
    return found and ", ".join(found)


def theorems_are_proved():
    """Each name in code that has a hyphen or an underscore stands on
    docs/PROVED.md."""
    known = set(inline_code(page("docs/PROVED.md")))
    wrong = [name for name in inline_code(text())
             if re.fullmatch(r"[a-z]\w*[-_][\w-]+", name) and name not in known
             and not name.startswith("rattle-kit")]
    return wrong and "not on docs/PROVED.md: " + ", ".join(wrong)


# ---- pictures

def picture_of_the_page():
    data = (ROOT / "docs/page.png").read_bytes()
    return (not data.startswith(PNG) or len(data) > MOST_PICTURE) and (
        "%d bytes" % len(data))


def picture_of_the_link():
    """A title, a description, and no letters that are too small at 800
    pixels."""
    root = ElementTree.parse(ROOT / "docs/link.svg").getroot()
    for name in ("title", "desc"):
        if not root.findtext(SVG + name):
            return "it has no " + name
    sizes = [float(each.get("font-size")) for each in root.iter()
             if each.get("font-size")]
    wide = float(root.get("viewBox").split()[2])
    return min(sizes) * 800 / wide < 14 and "letters are too small"


TESTS = (nine_kilobytes, there_are_three, the_gate_is_there,
         others_are_in_the_help, eight_lines, ten_words, crates_of_play,
         demand_3_is_explained_first, papers_are_not_cited,
         theorems_are_proved, picture_of_the_page, picture_of_the_link)


def tests(programs):
    for name, test in in_trees((play_says_the_lines, play_writes_the_page),
                               programs):
        yield "README: " + name, test
    for test in TESTS:
        yield "README: " + test.__name__.replace("_", " "), test

"""./play with options for pictures: what it hands on, and how it ends."""

from front_door.command import start, trouble
from front_door.play_tree import (
    ACCEPTED, NOT_PLAYED, REFUSED, in_traced_trees)
from front_door.remedies import what_to_do

# In the place of pictures.py: says its words, a line each, and the bytes of
# standard input; ends with 3.
STAND_IN = """\
import os, sys
for word in sys.argv[1:]:
    print(os.path.basename(word))
print(sys.stdin.buffer.read().hex())
sys.exit(3)
"""


def stand_in(tree):
    tree.write("tools/show/pictures.py", STAND_IN)


def handed(*words, data=ACCEPTED):
    """What the stand-in says of words and of the file's bytes."""
    return "".join(line + "\n" for line in (*words, data.hex())).encode()


def words_of_pictures(tree):
    """Options first, as they are given; then program, file, call."""
    stand_in(tree)
    named = "--", "dometrace", "calls"
    for words, output in (
            (("--window", tree.calls), ("--window", *named)),
            (("--window", tree.calls, "7"), ("--window", *named, "7")),
            (("--window", "--svg", "a b", tree.calls, "7"),
             ("--window", "--svg", "a b", *named, "7")),
            (("--window", tree.calls, "7", "--svg", "out"),
             ("--window", "--svg", "out", *named, "7")),
            (("--timeline", "--x", tree.calls), ("--timeline", "--x", *named)),
            (("--to", "9", "--page", "out.html", "--from", "4", "--",
              tree.calls),
             ("--to", "9", "--page", "out.html", "--from", "4", *named)),
            (("--allcalls", "--page", "out.html", tree.calls),
             ("--page", "out.html", "--allcalls", *named))):
        wrong = trouble(tree.start(*words), 3, handed(*output))
        if wrong:
            return "%s: %s" % (words, wrong)
    return None


def text_as_bytes(tree):
    """A picture is drawn of a text, under the text's name; standard input is
    named as such."""
    text = b"plan F=4 W=2 N=8\nflow share=1 cells=1 from=1 to=9\ntick\n"
    for words, options, name in (
            ((tree.write("by hand", text),), {}, "by hand"),
            (("-",), {"input": text}, "standard input")):
        ended = tree.start("--svg", "-", *words, **options)
        wrong = trouble(ended) or (
            "<title>%s after call 1 of 1</title>" % name
            not in ended.output.decode() and "another picture")
        if wrong:
            return "%s: %s" % (name, wrong)
    return None


def nothing_is_left(tree):
    """Temporary files go, however it ends."""
    stand_in(tree)
    folder = tree.root / "temporary"
    folder.mkdir()
    for words in (("--window", tree.calls), ("--explain", tree.calls),
                  ("--explain", "-")):
        start(["env", "TMPDIR=%s" % folder, tree.command, *words])
        if any(folder.iterdir()):
            return "%s: %s" % (words, list(folder.iterdir()))
    return None


def refused_plan(tree):
    """Nothing is drawn."""
    return trouble(tree.start("--window", "-", input=b"no plan"), REFUSED, b"",
                   "standard input is refused with 1: the plan has fewer",
                   what_to_do(1))


def pictures_are_missing(tree):
    (tree.root / "tools/show/pictures.py").unlink(missing_ok=True)
    return trouble(tree.start("--window", tree.calls), NOT_PLAYED, b"",
                   "tools/show/pictures.py, which a picture needs, is missing")


def no_python(tree):
    tree.only_tools()
    return trouble(tree.start("--window", tree.calls), NOT_PLAYED, b"",
                   "python3, which a picture needs, is not on the path")


def wrong_words(tree):
    stand_in(tree)
    for words, says in (
            (("--svg",), "--svg names no file to write"),
            (("--window", tree.calls, "7", "8"), "and 3 are named"),
            (("--explain", tree.calls, "7"), "and 2 are named"),
            (("--dense", tree.calls), "and 2 are named"),
            (("--explain", "--window", tree.calls), "don't go together"),
            (("--page", "out", tree.calls, "--to"), "--to names no slot"),
            (("--explain", "--from", "1", tree.calls),
             "--from goes with --timeline or --page alone"),
            (("--window", "nowhere"), "there is no file 'nowhere'")):
        wrong = trouble(tree.start(*words), NOT_PLAYED, b"", says)
        if wrong:
            return "%s: %s" % (words, wrong)
    return None


def help_fits(tree):
    lines = tree.start("--help").output.decode().splitlines()
    return (len(lines) > 40 or max(map(len, lines)) > 80) and "too large"


def tests(programs):
    return in_traced_trees((words_of_pictures, text_as_bytes, nothing_is_left,
                     refused_plan, pictures_are_missing, no_python,
                     wrong_words, help_fits))

"""Pictures that can't be drawn or written: a sentence and a status."""

import shutil
import tempfile

from front_door.command import redirected, start, trouble
from front_door.picture_files import COMMAND, LISTING, SHOW, Played, drawn
from front_door.play_tree import in_traced_trees

NOTHING_DRAWN, NOT_WRITTEN = 2, 3

# Words before the file, words after the listing, and words of the sentence.
WRONG_WORDS = [
    ([], [], "no picture is asked for"),
    (["--fast"], [], "there is no option '--fast'"),
    (["--window", "--window"], [], "--window is there twice"),
    (["--window"], ["8"], "there is no call 8: the file has 7 calls"),
    (["--window"], ["9" * 5000], "there is no call 999"),
    (["--window"], ["-1"], "there is no option '-1'"),
    (["--window"], ["last"], "'last' is no call number"),
    (["--window"], ["²"], "'²' is no call number"),
    (["--window"], ["1", "2"], "there are 4 words"),
    (["--window", "--from", "1"], [], "--from goes with --timeline or --page"),
    (["--timeline", "OUT", "--to", "x"], [], "--to takes a slot, as in --to "
     "40, and not 'x'"),
    (["--page", "OUT", "--from", "1" * 16], [], "--from takes a slot"),
    (["--page", "OUT", "--from", "3", "--to", "2"], [], "a stretch from slot "
     "3 to slot 2 has no slots"),
    (["--page", "OUT", "--from", "2"], [], "slot 2 has not come up: the last "
     "is slot 1"),
    (["--timeline", "OUT", "--from", "9"], [], "slot 9 has not come up"),
    (["--timeline", "OUT"], ["1"], "a call number goes with --window"),
    (["--svg", "OUT"], ["--page"], "--page needs a word after it"),
    (["--svg", "x", "--page", "x"], [], "two pictures can't both go to 'x'"),
    (["--window", "--svg", "-"], [], "the picture can't go there too"),
]
BAD_FILES = [
    (Played(b"", ["P 1"]), "is refused with 1: "),
    (Played(LISTING.data[:14], ["P 1"]), "is refused with 1: "),
    (Played(bytes.fromhex("0c0000000c00040002000400"), ["P 2"]),
     "is refused with 2: "),
]
REFUSED = 1
# In the place of dometrace, and what is said.
BAD_TRACES = [
    ("exit 1\n", "dometrace broke off: the trace is not whole"),
    ("echo Q\n", "after call 0 dometrace writes a line that is none of"),
    ("echo G 0\n", "after call 0 dometrace writes a line that is none of"),
    ("echo T 0 16 3 0 0 0 0 1 0 0; echo G 0 9 1 7 0 0 9 0 0 0 0 1 1 1 0 1 1\n",
     "after call 1 dometrace writes a line that is none of a trace"),
]


def wrong_words():
    for before, after, says in WRONG_WORDS:
        done = drawn(LISTING, *before, after=after)
        wrong = trouble(done.ended, NOTHING_DRAWN, b"", says)
        if wrong or done.text is not None:
            return "%s: %s" % (before + after, wrong or "a file is written")
    return None


def missing_words():
    for words in (["--window"], ["--window", "calls"]):
        wrong = trouble(start([*COMMAND, *words]), NOTHING_DRAWN, b"",
                        "a program and a call file have to be named")
        if wrong:
            return wrong
    return None


def bad_files():
    """A plan that is refused, with what to do; and no file to read."""
    for played, says in BAD_FILES:
        done = drawn(played, "--window")
        wrong = trouble(done.ended, REFUSED, b"", says, "play: what to do: ")
        if wrong:
            return "%s: %s" % (says, wrong)
    return None


def bad_traces(tree):
    """Nothing is drawn of lines that are none of a trace, or break off."""
    for script, says in BAD_TRACES:
        tree.instead("cat >/dev/null\necho P 0 4 2 4 1\necho E 2 2 1 9\n"
                     + script)
        for option in ("--svg", "--timeline", "--page"):
            out = tree.root / "out"
            wrong = trouble(tree.start(option, out, tree.calls), NOT_WRITTEN,
                            b"", says)
            if wrong or out.exists():
                return "%s, %s: %s" % (option, script, wrong or "it is drawn")
    return None


def files_that_cannot_be_written():
    for option, path in (("--svg", "/nowhere/out"), ("--timeline", "/"),
                         ("--page", "/dev/full")):
        done = drawn(LISTING, option, path)
        wrong = trouble(done.ended, NOT_WRITTEN, b"",
                        "'%s' can't be written" % path)
        if wrong:
            return "%s: %s" % (option, wrong)
    return None


def lost_output():
    with open("/dev/full", "wb") as full:
        for words in (["--window"], ["--svg", "-"]):
            wrong = trouble(drawn(LISTING, *words, stdout=full).ended,
                            NOT_WRITTEN, says="output was lost")
            if wrong:
                return wrong
        return trouble(start([*COMMAND, "--help"], stdout=full), NOT_WRITTEN,
                       says="output was lost")


def help_fits_a_screen():
    ended = start([*COMMAND, "--help"])
    lines = ended.output.decode().splitlines()
    return trouble(ended) or (
        (len(lines) > 40 or max(map(len, lines)) > 80) and "too large") or (
        "Exit status" not in ended.output.decode() and "no status")


# ---- what is written is said

def says_what_is_written():
    """A line for each file, and none for standard output."""
    done = drawn(LISTING, "--svg", "OUT", "--page", "-")
    wrong = trouble(done.ended, says="out' is written") or (
        "<svg" not in done.text and "no picture")
    with tempfile.TemporaryDirectory() as folder:
        two = drawn(LISTING, "--window", "--svg", folder + "/a", "--timeline",
                    folder + "/b").ended
    return wrong or trouble(
        two, says="play: '%s/a' is written" % folder,
        then="play: '%s/b' is written" % folder) or (
        b"after call 7" not in two.output and "no window") or trouble(
        drawn(LISTING, "--timeline", "-").ended)


# ---- through ./play

def with_pictures(tree):
    shutil.copytree(SHOW, tree.root / "tools/show", dirs_exist_ok=True)
    tree.calls.write_bytes(LISTING.data)


def window_through_play(tree):
    with_pictures(tree)
    ended = tree.start("--window", tree.calls, "3")
    return trouble(ended) or (
        b"after call 3 of 7" not in ended.output and "another picture")


def page_through_play(tree):
    with_pictures(tree)
    out = tree.root / "out.html"
    return trouble(tree.start("--page", out, tree.calls), output=b"",
                   says="play: '%s' is written" % out) or (
        "<title>calls, call by call" not in out.read_text() and "no title")


def svg_through_play(tree):
    """Alone, with a call number, and with standard error closed."""
    with_pictures(tree)
    out = tree.root / "out.svg"
    wrong = trouble(tree.start("--svg", out, tree.calls, "3"), output=b"",
                    says="play: '%s' is written" % out) or (
        "calls after call 3 of 7" not in out.read_text() and "no title")
    out.unlink()
    return wrong or trouble(
        start(redirected("2>&-", tree.command, "--svg", out, tree.calls)),
        output=b"") or not out.exists() and "nothing is written"


def not_over_its_own_file(tree):
    """The file that ./play reads stays as it is."""
    with_pictures(tree)
    return trouble(tree.start("--svg", tree.calls, tree.calls),
                   NOTHING_DRAWN, b"", "would be written over") or (
        tree.calls.read_bytes() != LISTING.data and "the file is gone")


def no_file_to_draw(tree):
    """The only file that is named is the one to write: it stays."""
    with_pictures(tree)
    for option in ("--svg", "--timeline", "--page"):
        wrong = trouble(tree.start(option, tree.calls), NOTHING_DRAWN, b"",
                        "none is named") or (
            tree.calls.read_bytes() != LISTING.data and "the file is gone")
        if wrong:
            return "%s: %s" % (option, wrong)
    return None


def closed_output(tree):
    with_pictures(tree)
    return trouble(start(redirected(">&-", tree.command, "--window",
                                    tree.calls)), NOT_WRITTEN,
                   says="standard output is closed")


TESTS = (wrong_words, missing_words, bad_files, files_that_cannot_be_written,
         lost_output, help_fits_a_screen, says_what_is_written)
THROUGH_PLAY = (window_through_play, page_through_play, svg_through_play,
                not_over_its_own_file, no_file_to_draw, closed_output,
                bad_traces)


def tests(programs):
    for test in TESTS:
        yield "pictures: " + test.__name__.replace("_", " "), test
    yield from in_traced_trees(THROUGH_PLAY)

"""./dome check and ./dome plans: what is printed of a show, the files that
are written, and a sentence for each bad show."""

import os
import re

from front_door.command import trouble
from front_door.dome_tree import (
    DONE, NOT_DONE, REFUSED, SMALL, in_trees)
from front_door.remedies import VERBS

HEAD = "dome F=16 W=4 N=255\n"
# Plans of SMALL worked out by hand: main is flow 0 of 0-1 and of 1-9, where it
# has its last cells; comet is flow 1 of 1-9.
PLANS = {
    "0-1.plan": "10 00 01 00 0c 00 04 00 02 00 28 00  01 02 00 09",
    "1-9.plan": "14 00 02 00 0c 00 04 00 02 00 28 00  01 03 00 09 02 06 01 09"}
INDEX = ["main 0-1 0", "main 1-9 0", "comet 1-9 1"]
# Bad files, each with what has to stand on a line of standard error; all of
# these end with 2, and each sentence stands on a line of its own.
BAD = {
    "empty file": ("", ["line 1: the file has no line that begins with dome: "
                        "write one, as in dome F=16 W=4 N=255"]),
    "unknown word": (HEAD + "strem a from=0 to=1 share=1\n",
                     ["line 2: a line begins with dome, stream or #, and "
                      "this one with 'strem'"]),
    "unknown key": (HEAD + "stream a from=0 to=1 share=1 cell=2\n",
                    ["line 2: 'cell=2' is none of from=NUMBER"]),
    "no number": (HEAD + "stream a from=x to=1 share=-1\n",
                  ["line 2: from= takes a number", "and has 'x'",
                   "line 2: share= takes a number", "and has '-1'"]),
    "ten digits": ("dome F=1234567890 W=4 N=255\n",
                   ["line 1: F= takes a number of one to nine digits"]),
    "key twice": (HEAD + "stream a from=0 from=0 to=1 share=1\n",
                  ["line 2: from= is given twice: leave one out"]),
    "missing": ("dome F=4\nstream a from=0\n",
                ["line 1: W= and N= are missing: write each with a number",
                 "line 2: to= and share= are missing: write each"]),
    "no name": (HEAD + "stream from=0 to=1 share=1\n",
                ["line 2: a stream has a name before its numbers"]),
    "bad name": (HEAD + "stream a.b from=0 to=1 share=1\n",
                 ["line 2: a name has letters, digits, - and _"]),
    "name twice": (HEAD + "stream a from=0 to=1 share=1\n\n"
                   "stream a from=1 to=2 share=1\n",
                   ["line 4: the name a stands on line 2 already: give each "
                    "stream its own"]),
    "dome twice": (HEAD + HEAD, ["line 2: the dome stands on line 1 already: "
                                 "leave one out"]),
    "65 streams": (HEAD + "".join(
        "stream s%d from=%d to=%d share=1\n" % (i, i % 64, (i + 1) % 64)
        for i in range(65)), ["line 66: a show has at most 64 streams, and "
                              "this is one more: leave some out"]),
    "no text": (HEAD.encode() + b"stream \xff\n", ["line 2: it is no text"]),
    # 10 MB: of each 256 bytes one is a newline, so byte 65,537 is on line 257
    "noise": (bytes(range(256)) * 40000, [
        "line 257: here the file has more than 65,536 bytes"]),
    "all at once": (
        "dome F=16 W=x\nstrem a\nstream b.c from=0 to=1 share=1\nstream d\n"
        "stream e from=0 to=1 share=1 share=2\nstream e from=1 to=2 share=1\n"
        "dome F=1 W=2 N=3\n",
        ["line 1: W= takes a number of one to nine digits, and has 'x'",
         "line 1: N= is missing", "line 2: a line begins with",
         "line 3: a name has letters", "line 4: from=, to= and share= are",
         "line 5: share= is given twice", "line 6: the name e stands on line 5",
         "line 7: the dome stands on line 1"]),
}
# Shows that are refused: each sentence, on a line of its own, and the numbers
# about which is said what to do; these end in 1.
REFUSALS = {
    "the dome": ("dome F=65 W=4 N=255\n", [
        "line 1: the dome, with F=65 W=4 N=255, is refused with 3: F is not 1 "
        "to 64"], [3]),
    "the window": (
        "dome F=64 W=8 N=255\nstream a from=0 to=1 share=1\n",
        ["line 1: the dome, with F=64 W=8 N=255, is refused with 3: the "
         "window has more than 256 positions; here it has 512\n"], [3]),
    "each of the dome's numbers": (
        "dome F=65 W=9 N=4096\nstream a from=0 to=1 share=1\n",
        ["is refused with 3: F is not 1 to 64; here F is 65\n",
         "is refused with 3: W is not 2 to 8; here W is 9\n",
         "is refused with 3: the window has more than 256 positions; here it "
         "has 585\n",
         "is refused with 3: N is not 1 to 4,095; here N is 4096\n"], [3]),
    "dome and stream at once": (
        "dome F=16 W=1 N=255\nstream a from=0 to=0 share=1\n",
        ["line 1: the dome, with F=16 W=1 N=255, is refused with 3: W is not "
         "2 to 8; here W is 1\n",
         "line 2: stream a, with from=0 to=0 share=1 and 2 cells, 3 on the "
         "last link, is refused with 4: it ends where it starts\n"], [3, 4]),
    # F could be 64 at most: with that share 65 is wrong, and 33 and 32 are
    # over on the link that both take.
    "a dome, streams and a link at once": (
        "dome F=65 W=4 N=255\nstream a from=0 to=1 share=65 cells=1\n"
        "stream b from=0 to=2 share=33 cells=9\n"
        "stream c from=0 to=64 share=1\nstream d from=0 to=3 share=32 cells=9"
        "\n",
        ["line 1: the dome, with F=65 W=4 N=255, is refused with 3: F is not "
         "1 to 64; here F is 65\n",
         "line 2: stream a, with from=0 to=1 share=65 and 1 cell, 1 on the "
         "last link, is refused with 4: its share is not 1 to F, which is 64 "
         "at most\n",
         "line 4: stream c, with from=0 to=64 share=1 and 2 cells, 3 on the "
         "last link, is refused with 4: the board that it goes to is above 63",
         "the link from 0 to 1 is refused with 6: the shares add to more than "
         "F; on it meet b of line 3 and d of line 5, with 65 of 64 slots and "
         "18 of 255 cells"], [3, 4, 6]),
    "a stream and a link at once": (
        HEAD + "stream a from=0 to=2 share=9\nstream b from=0 to=3 share=8\n"
        "stream c from=5 to=5 share=1\n",
        ["line 4: stream c, with from=5 to=5 share=1 and 2 cells, 3 on the "
         "last link, is refused with 4: it ends where it starts\n",
         "the link from 0 to 1 is refused with 6: the shares add to more than "
         "F; on it meet a of line 2 and b of line 3"], [4, 6]),
    "a stream to itself": (HEAD + "stream a from=7 to=7 share=1\n", [
        "line 2: stream a, with from=7 to=7 share=1 and 2 cells, 3 on the "
        "last link, is refused with 4: it ends where it starts\n"], [4]),
    "a board that is none": (HEAD + "stream a from=0 to=64 share=1\n", [
        "line 2: stream a, with from=0 to=64 share=1 and 2 cells, 3 on the "
        "last link, is refused with 4: the board that it goes to is above 63"
        "\n"], [4]),
    "too many cells": (HEAD + "stream a from=0 to=1 share=1 cells=256\n", [
        "line 2: stream a, with from=0 to=1 share=1 and 256 cells, 256 on the "
        "last link, is refused with 4: its cells are not 1 to 255\n",
        "is refused with 7: the cells add to more than N\n"], [4, 7]),
    "all that a stream can have": (
        HEAD + "stream a from=99 to=99 share=0 cells=0\n",
        ["is refused with 4: its share is not 1 to F, which is 16, and its "
         "cells are not 1 to 255, and the board that it comes from is above "
         "63, and the board that it goes to is above 63, and it ends where it "
         "starts\n"], [4]),
    "two streams that are wrong": (
        HEAD + "stream a from=0 to=1 share=17\nstream b from=0 to=1 share=0\n",
        ["line 2: stream a, with from=0 to=1 share=17 ",
         "line 3: stream b, with from=0 to=1 share=0 "], [4]),
    "more cells than places": (
        "dome F=16 W=4 N=5\nstream a from=0 to=1 share=1 cells=6\n",
        ["line 2: stream a, with from=0 to=1 share=1 and 6 cells, 6 on the "
         "last link, is refused with 7: the cells add to more than N"], [7]),
    "two links that are over": (
        HEAD + "stream a from=0 to=2 share=9\nstream b from=0 to=2 share=8\n",
        ["the link from 0 to 1 is refused with", "the link from 1 to 2 is",
         "on it meet a of line 2 and b of line 3, with 17 of 16 slots and 34 "
         "of 255 cells", "with 17 of 16 slots and 51 of 255 cells"], [5]),
    "shares that are over": (
        HEAD + "stream a from=0 to=2 share=9\nstream b from=0 to=3 share=8\n",
        ["the link from 0 to 1 is refused with 6: the shares add to more than "
         "F; on it meet a of line 2 and b of line 3"], [6]),
    "the same ends": (
        HEAD + "stream a from=0 to=1 share=1\nstream b from=0 to=1 share=1\n",
        ["the link from 0 to 1 is refused with 5", "meet a of line 2 and b"],
        [5]),
    "17 streams of a link": (
        "dome F=64 W=4 N=255\n" + "".join(
            "stream s%d from=0 to=%d share=1 cells=1\n" % (i, to)
            for i, to in enumerate([*range(1, 8), *range(9, 16),
                                    *range(17, 20)])),
        ["the link from 0 to 1 is refused with 2",
         "s0 of line 2, s1 of line 3"], [2]),
}
TO_DO = re.compile(r"^dome: what to do about (\d+): (\w+) ", re.MULTILINE)


def told(ended, status, sentences):
    """What is wrong with how a bad show ended, or None."""
    if ended.status != status or ended.output:
        return "status %d for %d: %s" % (ended.status, status, ended.errors)
    missing = [text for text in sentences if text not in ended.errors]
    return missing and "not said: %s, but %s" % (missing, ended.errors[:400])


def each_bad_file(tree):
    for name, (text, sentences) in BAD.items():
        wrong = told(tree.check(text), NOT_DONE, sentences)
        if wrong:
            return "%s: %s" % (name, wrong)
    return None


def each_refused_show(tree):
    for name, (text, sentences, numbers) in REFUSALS.items():
        ended = tree.check(text)
        wrong = told(ended, REFUSED, sentences)
        found = TO_DO.findall(ended.errors)
        if wrong or [int(number) for number, _ in found] != numbers or any(
                verb not in VERBS for _, verb in found):
            return "%s: %s" % (name, wrong or ended.errors)
    return None


def noise_without_end(tree):
    """No more is read than a show has, and one byte."""
    ended = tree.start("check", "/dev/zero")
    return told(ended, NOT_DONE, ["line 1: here the file has more than"])


def a_window_that_no_link_has(tree):
    """Rule 25.3: without streams W and N are not looked at."""
    return trouble(tree.check("dome F=64 W=9 N=0\n"), DONE)


def what_is_printed(tree):
    ended = tree.start("check", tree.file)
    text = ended.output.decode()
    # Over two links main takes 3 frames, and comet over one 2 and one more for
    # its burst: 11 slots each.
    for words in ("main 0 9 2 1 25.0 % 2 3 0 11 3 frames",
                  "comet 1 9 1 2 50.0 % - 6 1 11 3 frames",
                  "main 0 1 9", "comet 1 9",
                  "1-9 3/4 1 9/40 31 main comet", "0-1 1/4 3 2/40 38 main",
                  "the show passes: 2 streams, 2 links are used"):
        if words.split() not in [line.split() for line in text.splitlines()]:
            return "not printed: %r, but %s" % (words, text)
    return trouble(ended, DONE)


def links_that_are_as_full(tree):
    """Five links are listed; of others that are as full as the last it is said
    how many there are."""
    for boards, more in ((5, ""), (6, "and 1 more link is as full as the last "
                                      "of these\n"),
                         (7, "and 2 more links are as full as the last of "
                             "these\n")):
        ended = tree.check(HEAD + "stream a from=0 to=%d share=4\n" % boards
                           + "stream b from=8 to=9 share=3\n")
        found = ended.output.decode().partition("the fullest links\n")[2]
        listed, _, rest = found.partition("\n\n")
        if (len(listed.splitlines()), more in listed + "\n") != (
                6 + bool(more), True) or not rest:
            return "%d: %s" % (boards, found)
    return None


def no_bound_is_told(tree):
    """Of a burst that domeplan takes no question about, and of a stream over
    one link with fewer cells than three shares."""
    ended = tree.check(HEAD + "stream a from=0 to=1 share=1 burst=1000\n"
                       "stream b from=1 to=2 share=1 cells=1\n")
    text = ended.output.decode()
    missing = [words for words in (
        "none: a bound is told of bursts up to 999",
        "none: 1 on the last link, and it takes 3") if words not in text]
    return trouble(ended, DONE) or missing and "%s: %s" % (missing, text)


def a_show_without_streams(tree):
    ended = tree.check("# nothing yet\n" + HEAD)
    return ended.status != DONE and ended.errors or (
        b"the show passes: 0 streams, 0 links are used" not in ended.output
        and ended.output.decode())


def the_plan_files(tree):
    folder = tree.root / "plans"
    folder.mkdir()
    (folder / "other.txt").write_text("left alone")
    ended = tree.start("plans", tree.file, folder)
    found = {path.name: path.read_bytes() for path in folder.iterdir()}
    index = found.pop("index.txt", b"").decode().splitlines()[1:]
    other = found.pop("other.txt", b"")
    if other != b"left alone" or index != INDEX or found != {
            name: bytes.fromhex(text) for name, text in PLANS.items()}:
        return "%s %s %s" % (other, index, found)
    return trouble(ended, DONE, b"", "2 plans and index.txt are written to")


def plans_of_another_show(tree):
    """They are told, in the order of boards, and left alone; what has another
    name is not looked at."""
    folder = tree.root / "plans"
    folder.mkdir()
    for name in ("10-11.plan", "2-3.plan", "1-9.plan", "notes.plan"):
        (folder / name).write_text("old")
    ended = tree.start("plans", tree.file, folder)
    kept = [name for name in ("10-11.plan", "2-3.plan", "notes.plan")
            if (folder / name).read_text() == "old"]
    return len(kept) != 3 and "only %s are left" % kept or trouble(
        ended, DONE, b"", "2 plans and index.txt are written to",
        "has plans of links that this show doesn't use: 2-3.plan and "
        "10-11.plan; they are left alone")


def nothing_is_written_of_a_refused_show(tree):
    folder = tree.root / "plans"
    ended = tree.start("plans", "-", folder, input=(
        SMALL + "stream more from=0 to=9 share=4\n").encode())
    return ended.status != REFUSED and ended.errors or (
        folder.exists() and "%s is there" % folder)


def no_permission(tree):
    """As root every file can be read and written: a folder can't."""
    ended = tree.start("check", tree.root)
    wrong = ended.status != NOT_DONE or "can't be read" not in ended.errors
    ended = tree.start("plans", tree.file, tree.file)
    wrong = wrong or ended.status != NOT_DONE or (
        "can't be written" not in ended.errors)
    if os.geteuid() != 0:
        tree.file.chmod(0)
        ended = tree.start("check", tree.file)
        wrong = wrong or "can't be read" not in ended.errors
    return wrong and ended.errors


def wrong_words(tree):
    for words in ((), ("chek", "a.dome"), ("check",), ("plans", "a.dome"),
                  ("play",), ("play", tree.file, "--slots", "0"),
                  ("play", tree.file, "--greedy", "nobody"),
                  ("play", tree.file, "--rate", "main=2"),
                  ("play", tree.file, "--rate", "=0.5"),
                  ("play", tree.file, "--seed", "abc"),
                  ("play", tree.file, "--seed", "-1"),
                  ("page", tree.file, "out", "--seed", ""),
                  ("play", tree.file, "--rate", "nan")):
        ended = tree.start(*words)
        wrong = trouble(ended, NOT_DONE, b"", "dome: ")
        if wrong:
            return "%s: %s" % (words, wrong)
    return trouble(tree.start("play", tree.file, "--late", "nobody"), NOT_DONE,
                   b"", "no stream nobody: its streams are main and comet"
                   ) or trouble(
        tree.start("play", tree.file, "--seed", "abc"), NOT_DONE, b"", "dome: "
        "--seed takes a number of one to nine digits, and has 'abc'")


def tests(programs):
    return in_trees((
        each_bad_file, each_refused_show, noise_without_end,
        a_window_that_no_link_has, what_is_printed, links_that_are_as_full,
        no_bound_is_told, a_show_without_streams, the_plan_files,
        plans_of_another_show, nothing_is_written_of_a_refused_show,
        no_permission, wrong_words), programs)

"""./plan --json: one object for programs, in place of lines and sentences."""

import json

import call_bytes
from front_door.command import trouble
from front_door.plan_tree import DONE, NOT_DONE, NUMBERS, REFUSED, in_trees

TEXT = """\
plan F=8 W=2 N=9
flow main share=3 cells=6 from=1 to=9
flow share=1 cells=3 from=2 to=9
"""
MAIN = {"flow": 0, "name": "main", "line": 2, "share": 3, "cells": 6,
        "source": 1, "destination": 9}
OTHER = {"flow": 1, "name": None, "line": 3, "share": 1, "cells": 3,
         "source": 2, "destination": 9}
PLAN = {"F": 8, "W": 2, "N": 9, "slots_left": 4, "places_left": 0}
PASSES = {"verdict": "passes", "status": DONE}
# 2F - 1 slots; two and three shares of cells; a share more is a frame more.
DELAY = {"delay_slots": 15, "delay_frames": 2, "frames_more": 1}
CHECKED = {
    **PASSES, "refusal": 0, "faults": [], "plan": {**PLAN, "flows": [
        {**MAIN, **DELAY, "rate": 0.375, "come_up_needs": 6, "shown_needs": 9,
         "tiles_more": 3},
        {**OTHER, **DELAY, "rate": 0.125, "come_up_needs": 2,
         "shown_needs": 3, "tiles_more": 1}]},
    "to_change": ["flow main: 9 cells for 6 if this is its last link",
                  "the cells then add to 12 at most, and N is 9: raise it, or "
                  "lower shares"]}
REFUSED_TEXT = TEXT.replace("cells=3", "cells=300").replace("W=2", "W=9")
FAULTS = [
    {"number": 3, "says": "W is not 2 to 8; here W is 9 (line 1)",
     "field": "W", "value": 9, "lines": [1]},
    {"number": 4, "says": "a flow's cells are 0 or above 255; here flow 1 "
     "(line 3) has 300 cells", "field": "cells", "value": 300, "flows": [1],
     "lines": [3], "names": [None]},
    {"number": 7, "says": "the cells add to more than N; here they add to "
     "306, and N is 9 (line 1)", "field": "cells", "value": 306,
     "lines": [1]}]
NOT_PASSED = {
    "verdict": "refused", "status": REFUSED, "refusal": 3, "faults": FAULTS,
    "plan": {**PLAN, "W": 9, "places_left": -297,
             "flows": [MAIN, {**OTHER, "cells": 300}]}}

# Words of ./plan, and the object.
OBJECTS = [
    ("--count 4 2", {**PASSES, "F": 4, "flows": 2, "fit": 6,
                     "do_not_fit": 10}),
    ("--extras 4 7 comet 3 40 2 30", {
        **PASSES, "slots": 4, "budget": 7, "worth": 40, "ceiling": 40,
        "layers": [{"layer": 0, "name": "comet", "share": 3, "worth": 40,
                    "on": True},
                   {"layer": 1, "name": None, "share": 2, "worth": 30,
                    "on": False}]}),
    ("--extras 4 0", {
        "verdict": "refused", "status": REFUSED, "refusal": 27, "faults": [
            {"number": 27, "says": "no set is to be looked at; here there are "
             "0"}]}),
    ("--week 0 5 7", {**PASSES, "faults": [], "spans": [
        {"start": 0, "end": 5, "from": "mon 00:00", "to": "mon 00:05",
         "runs": "plan 7"},
        {"start": 5, "end": 10080, "from": "mon 00:05", "to": "sun 24:00",
         "runs": "dark"}]}),
    ("--at mon 00:04 0 5 7", {
        **PASSES, "faults": [], "minute": 4, "at": "mon 00:04",
        "runs": "plan 7", "start": 0, "end": 5}),
    ("--at 5 0 5 7", {**PASSES, "faults": [], "minute": 5, "at": "mon 00:05",
                      "runs": None}),
    ("--week 5 5 7", {
        "verdict": "refused", "status": REFUSED, "faults": [
            {"number": 28, "says": "a showing's start is not before its end; "
             "here entry 1 is from 5 to 5"}]}),
    ("--mesh 2 0 9 2 1 9 1", {
        "verdict": "refused", "status": REFUSED, "refusal": 25, "faults": [
            {"number": 25, "says": "on some link of the mesh the streams' "
             "shares add to more than F; here 1 link is over"}], "F": 2,
        "streams": [{"stream": 0, "source": 0, "destination": 9, "share": 2,
                     "way": [0, 1, 9]},
                    {"stream": 1, "source": 1, "destination": 9, "share": 1,
                     "way": [1, 9]}],
        "over": [{"from": 1, "to": 9, "carries": 3}]}),
    ("--mesh 65 0 9 2", {
        "verdict": "refused", "status": REFUSED, "refusal": 3, "faults": [
            {"number": 3, "says": "F is not 1 to 64; here F is 65"}]}),
]


def wrong_object(ended, right):
    """What is wrong where standard output has to be one object, and standard
    error nothing."""
    wrong = trouble(ended, right["status"])
    if wrong:
        return wrong
    found = json.loads(ended.output)
    return found != right and "%s" % found


def of_a_text(tree):
    """A plan that passes and one that is refused, by --check and --read."""
    tree.write("good.txt", TEXT)
    tree.write("bad.txt", REFUSED_TEXT)
    read = {**PASSES, "refusal": 0, "faults": [],
            "plan": {**PLAN, "flows": [MAIN, OTHER]}}
    for words, right in ((["--check", "good.txt"], CHECKED),
                         (["--read", "good.txt"], read),
                         (["--check", "bad.txt"], NOT_PASSED),
                         (["--read", "bad.txt"], NOT_PASSED)):
        for line in ([*words, "--json"], ["--json", *words]):
            wrong = wrong_object(tree.start(*line, cwd=tree.root), right)
            if wrong:
                return "%s: %s" % (line, wrong)
    return None


def of_a_file(tree):
    """Bytes have no lines and no names; what is no plan has no numbers."""
    ended = tree.start("--check", "--json", tree.file)
    flows = json.loads(ended.output)["plan"]["flows"]
    header = "the plan has fewer than 12 bytes or another length than it " \
        "states; at the start of a call file, also where that is not 12 to " \
        "76; here it has 1 byte"
    return trouble(ended) or (
        [(flow["line"], flow["name"]) for flow in flows] != 2 * [(None, None)]
        and "%s" % flows) or wrong_object(
        tree.start("--json", "--check", "-", input=b"\x14"),
        {"verdict": "refused", "status": REFUSED, "refusal": 1, "faults": [
            {"number": 1, "says": header}]})


def of_no_text(tree):
    """What is wrong by line, and of the whole text."""
    ended = tree.start("--check", "--json", "-",
                       input=b"flow share=1 cells=1 from=1\n")
    return wrong_object(ended, {
        "verdict": "not read", "status": NOT_DONE, "lines": [
            {"line": 1,
             "says": "to= is missing: write each with a number after it"},
            {"line": None, "says": "it has no line that begins with plan, as "
             "in plan F=4 W=2 N=4"}]})


def of_questions(tree):
    for words, right in OBJECTS:
        wrong = wrong_object(tree.start("--json", *words.split()), right)
        if wrong:
            return "%s: %s" % (words, wrong)
    return None


def what_would_fit(tree):
    data = call_bytes.plan(8, 2, 9, [(1, 1, 1, 9)])
    ended = tree.start("--fits", "--json", "-", input=data)
    found = json.loads(ended.output)
    return trouble(ended) or (
        (found["verdict"], found["largest_share"], found["most_cells"],
         found["smallest_N"]) != ("passes", 7, 8, 1) and "%s" % found)


def a_week_of_files(tree):
    """Lines and plans that are wrong, by line."""
    tree.write("week", "mon 20:00-21:00 show.plan\nflaw\n")
    ended = tree.start("--week", "--json", "week", cwd=tree.root)
    found = json.loads(ended.output)
    return trouble(ended, NOT_DONE) or (
        (found["verdict"], [line["line"] for line in found["lines"]])
        != ("not read", [2]) and "%s" % found)


def where_it_does_not_go(tree):
    """A file that is made is no object."""
    return trouble(tree.start("--json", *NUMBERS), NOT_DONE, b"", "--json "
                   "goes with what is printed, and here a file is made")


# Commands that can't be done, each with its sentence.
NOTHING_DONE = (
    (["--check", "nowhere"], "there is no file 'nowhere'"),
    (["--read", "."], "'.' is a directory, not a plan file"),
    (["--week", 'no "such"'], "'no \"such\"' is no number, and there is no "
     "file of that name; ./plan --help says more"),
    (["--count", "4"], "--count takes F and how many flows there are, and 1 "
     "is given; ./plan --help says more"))


def where_nothing_is_done(tree):
    """The sentence on standard error, and an object with it."""
    for words, says in NOTHING_DONE:
        ended = tree.start("--json", *words, cwd=tree.root)
        wrong = trouble(ended, NOT_DONE, None, "plan: " + says) or (
            json.loads(ended.output) != {
                "verdict": "not read", "status": NOT_DONE, "error": says}
            and ended.output)
        if wrong:
            return "%s: %s" % (words, wrong)
    return None


def where_domeplan_is_not_there(tree):
    """What sh says of it stays on standard error."""
    tree.program.unlink()
    tree.only_tools()
    ended = tree.start("--json", "--check", tree.file)
    return trouble(ended, NOT_DONE, None, "target/bin/domeplan is missing") or (
        json.loads(ended.output) != {
            "verdict": "not read", "status": NOT_DONE,
            "error": "domeplan is not built"} and ended.output)


TESTS = (of_a_text, of_a_file, of_no_text, of_questions, what_would_fit,
         a_week_of_files, where_it_does_not_go, where_nothing_is_done,
         where_domeplan_is_not_there)


def tests(programs):
    for name, test in in_trees(TESTS, programs):
        yield name.replace("plan:", "plan --json:"), test

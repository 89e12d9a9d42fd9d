"""./check-log for programs and on long files: --json, what is kept in memory,
and a break."""

import json
import os
import re
import signal
import subprocess
import sys
import time

from front_door.check_log import (
    ALIKE, DIFFER, NOT_COMPARED, LogTree, listing)
from front_door.command import LIMIT, ROOT, start, trouble
from front_door.tree import named

# What is booked and what left, words before them, and the object.
OBJECTS = [
    ("0 1 - 1", "0 - 1 -", [], {
        "verdict": "differ", "status": DIFFER, "booked_slots": 4,
        "sent_slots": 4, "agree": 1, "idle": 0, "dead_link": False,
        "first_line_is_slot": None,
        "flows_from_1": False,
        "flows": [
            {"flow": 0, "booked": 1, "in_slot": 1, "elsewhere": 0, "never": 0,
             "says": "flow 0: 1 booked, left in its slot"},
            {"flow": 1, "booked": 2, "in_slot": 0, "elsewhere": 1, "never": 1,
             "says": "flow 1: 2 booked, 1 left elsewhere, 1 never: none in a "
             "slot of its own: look at its board's plan, and at which stream "
             "has this number"}],
        "without_grants": [], "faults": 3, "first_faults": [
            {"slot": 2, "says": "it was booked for flow 1, and nothing left"},
            {"slot": 3, "says": "nobody booked it, and flow 1 left"},
            {"slot": 4, "says": "it was booked for flow 1, and nothing left"}],
        "refused": [], "to_come": 0}),
    ("- 0 0", "0 - 0", ["--ahead"], {
        "verdict": "ahead", "status": ALIKE, "booked_slots": 3,
        "sent_slots": 3, "tiles": 2, "in_time": 2, "ahead": 1, "gained": 1,
        "dead_link": False, "first_line_is_slot": None,
        "flows_from_1": False,
        "flows": [
            {"flow": 0, "booked": 2, "in_time": 2, "elsewhere": 0, "never": 0,
             "ahead": 1, "gained": 1, "most": 1, "says": "flow 0: 2 tiles, 1 "
             "ahead; 1 slot gained, a mean of 0.50 and at most 1"}],
        "without_grants": [], "faults": 0, "first_faults": [], "refused": [],
        "to_come": 0}),
    ("0", "-", ["--ahead"], {
        "verdict": "differ", "status": DIFFER, "booked_slots": 1,
        "sent_slots": 1, "tiles": 1, "in_time": 0, "ahead": 0, "gained": 0,
        "dead_link": True, "first_line_is_slot": None,
        "flows_from_1": False,
        "flows": [
            {"flow": 0, "booked": 1, "in_time": 0, "elsewhere": 0, "never": 1,
             "ahead": 0, "gained": 0, "most": 0,
             "says": "flow 0: 1 booked, none left"}],
        "without_grants": [], "faults": 1, "first_faults": [
            {"slot": 1, "says": "flow 0's tile did not leave at all"}],
        "refused": [], "to_come": 0}),
]
SLOTS = 400_000             # of the long files
MORE_BYTES = 4_000_000      # that they may take; to keep them takes 6,400,000
MEASURE = """\
import resource, subprocess, sys
status = subprocess.call(sys.argv[1:], stdout=subprocess.DEVNULL)
print(1024 * resource.getrusage(resource.RUSAGE_CHILDREN).ru_maxrss, status)
"""


# ---- for programs

def objects(tree):
    for booked, sent, words, right in OBJECTS:
        ended = tree.compare(booked, sent, "--json", *words)
        wrong = trouble(ended, right["status"]) or (
            json.loads(ended.output) != right and ended.output)
        if wrong:
            return "%s against %s: %s" % (booked, sent, wrong)
    return None


def members_are_on_the_man_page(tree):
    """Each is named there, as a word that is set bold."""
    text = (ROOT / "docs/man/check-log.1").read_text()
    bold = set(re.findall(r"\w+", " ".join(
        re.findall(r"^\.BR? (.*)$", text, re.MULTILINE))))
    members = {name for *_, right in OBJECTS for name in [
        *right, *(each for flow in right["flows"] for each in flow)]}
    missing = sorted(members - bold)
    return missing and "not named: %s" % missing


def object_of_refusals(tree):
    """By number; no flow is known without the file of calls."""
    ended = tree.start(
        "--json", tree.write("booked", "P 0\nG 1\nR 12\nR 9\nR 12\nT -\n"),
        "-", input=b"-\n")
    found = json.loads(ended.output)
    return trouble(ended, DIFFER) or (
        (found["verdict"], found["to_come"], found["refused"]) != (
            "refused", 1, [
                {"number": 9, "calls": 1, "first_call": 3, "wrong": True,
                 "flows": []},
                {"number": 12, "calls": 2, "first_call": 2, "wrong": False,
                 "flows": []}]) and ended.output)


def moved(tree):
    found = json.loads(tree.compare("0 1 - 2 3", "1 - 2 3", "--json").output)
    return found["first_line_is_slot"] != 2 and found


def without_files(tree):
    """A sentence, as without --json, and an object with it."""
    for words, says in (
            (["nowhere", "-"], "there is no file 'nowhere'"),
            (["-", tree.root], "'%s' is a directory, not a list of streams"
             % tree.root),
            (["one"], "two files are compared, BOOKED and SENT, and 1 is "
             "named; ./check-log --help says more")):
        ended = tree.start("--json", *words, input=b"P 0\nT -\n")
        wrong = trouble(ended, NOT_COMPARED, None, "check-log: " + says) or (
            json.loads(ended.output) != {
                "verdict": "not compared", "status": NOT_COMPARED,
                "error": says} and ended.output)
        if wrong:
            return "%s: %s" % (words, wrong)
    return None


# ---- long files

def most_memory(words):
    """The most bytes that a command takes, and its exit status; told by a
    small process, since a child begins with what its parent takes."""
    said = start([sys.executable, "-S", "-c", MEASURE, *words]).output
    return [int(number) for number in said.split()]


def constant_memory(tree):
    """Slots that differ, tiles that never leave and a refusal in each frame
    are counted, and not kept."""
    taken = {}
    for slots in (4, SLOTS):
        times = slots // 4
        booked = tree.write("booked", "P 0\n" + times * (
            "G 1\nR 12\nG 1\nT 0\nT -\nT 1\nT -\nC\n"))
        sent = tree.write("sent", times * "0\n0\n-\n-\n")
        for words in ([], ["--ahead"]):
            most, status = most_memory([tree.command, *words, booked, sent])
            if status != DIFFER:
                return "status %d" % status
            if most - taken.setdefault(tuple(words), most) > MORE_BYTES:
                return "%s: %d bytes" % (words, most)
    return None


def broken_off(tree):
    """A sentence says how far it came."""
    os.mkfifo(tree.root / "sent")
    process = subprocess.Popen(
        [tree.command, "-", tree.root / "sent"], stdin=subprocess.PIPE,
        stdout=subprocess.PIPE, stderr=subprocess.PIPE)
    process.stdin.write(listing("0 0").encode())
    process.stdin.flush()
    with open(tree.root / "sent", "wb", buffering=0) as sent:
        sent.write(b"0\n0\n")
        time.sleep(0.5)
        process.send_signal(signal.SIGINT)
        output, errors = process.communicate(timeout=LIMIT)
    right = (process.returncode, output) == (NOT_COMPARED, b"") \
        and re.fullmatch(rb"check-log: broken off after slot [0-2]\n", errors)
    return not right and "status %d, %r, %r" % (process.returncode, output,
                                                errors)


TESTS = (objects, members_are_on_the_man_page, object_of_refusals, moved,
         without_files, constant_memory, broken_off)


def tests(programs):
    for name, test in named(LogTree, TESTS, programs):
        yield name.replace("log:", "log, long:"), test

"""./play --health: how each flow fared, what is wrong, and what to look at.
Tables and sentences are worked out by hand: T = 8 in all files but the
flights, and slots are numbered without end."""

import json
import re
import signal
import subprocess
import time
from pathlib import Path

import call_bytes
from edges.all_edges import ALLCALLS_EDGES
from edges.edge_maker import BASE
from front_door.check_long import most_memory
from front_door.command import (
    LIMIT, ROOT, into_full_pipe, redirected, start, trouble)
from front_door.play_explain import ALL_CALLS
from front_door.play_tree import NOT_PLAYED, NOT_WHOLE, in_traced_trees
from front_door.remedies import what_to_do
from front_door.show_tools import plan_and_lines, run_health
from generator.seeds import BURSTS, LENDS, RESETS

PASSES, FAILS = 0, 1
HEAD = "flow  asked  granted  promised  refused  longest wait  overdue\n"
ONE = "plan F=4 W=2 N=4\nflow share=1 cells=%d from=1 to=9\n"
TWO = ONE % 2 + "flow share=2 cells=2 from=2 to=9\n"
BOARD = ": look at the board that it leads to\n"
WITH_9 = "the word's destination is not the flow's%s look at the sender's " \
    "routing\n"
WITH_12 = "the flow has share left in the newest frame, but no position that " \
    "would be valid, whatever the word's departure; wait for credits or the " \
    "next frame\n"
WITH_24 = "the word's quantum number is not the one that is expected of its " \
    "flow%s go on by one after a grant, and send the same number again after " \
    "a refusal\n"
NOT_BACK = "a cell of slot 1 is not given back since slot 2"

# Slots 1 and 2 are granted in slot 0, slot 5 in slot 4; all cells are back.
GOOD = (TWO + "ask 0\nask 1\ntick 2\ncredit 0 4\ncredit 1 5\ntick 2\nask 0\n"
        "tick\ncredit 0 7\ntick 3\n",
        "passes: 14 calls, 8 slots in 3 frames\n\n" + HEAD +
        "   0   0.67     0.67         1        0             1        0\n"
        "   1   0.33     0.33         2        0             2        0\n")
WRONG_NODE = (
    TWO + "ask 0\nask 1 to=8\ntick 2\ncredit 0 4\nask 1 again to=8\ntick 2\n",
    "fails: 8 calls, 4 slots in 2 frames\n\n" + HEAD +
    "   0   0.50     0.50         1        0             1        0\n"
    "   1   1.00     0.00         2        2             -        0  fails\n\n"
    "flow 1: nothing is granted to it: 2 requests refused, 2 with 9\n"
    "flow 1: 2 requests refused with 9, call 2 in slot 0 first: "
    + WITH_9 % ":" + "\n2 refused with 9 (flow 1: 2): " + WITH_9 % ";")
# The only cell, of slot 1, is credited in slot 4, after the next tile was
# asked for.  The refusal leaves the flow in the frame of slot 8 (rule 6.6).
LATE = (ONE % 1 + "ask 0\ntick 4\nask 0\ncredit 0 5\nask 0 again\ntick 4\n"
        "credit 0 2\n",
        "fails: 13 calls, 8 slots in 3 frames\n\n" + HEAD +
        "   0   1.00     0.67         1        1             4        0  fails"
        "\n\nflow 0: 1 request within its share refused with 12, call 6 in "
        "slot 4: " + NOT_BACK + BOARD
        + "\n1 refused with 12 (flow 0: 1): " + WITH_12)
# The cell never comes back: each frame's tile is refused, and in slot 12 the
# slot came up 11 slots ago.
DEAD = (ONE % 1 + "ask 0\ntick 4\nask 0\ntick 4\nask 0 again\ntick 4\n",
        "fails: 15 calls, 12 slots in 4 frames\n\n" + HEAD +
        "   0   0.75     0.25         1        2             1        1  fails"
        "\n\nflow 0: " + NOT_BACK + BOARD +
        "flow 0: 2 requests within its share refused with 12, call 6 in slot "
        "4 first: " + NOT_BACK + BOARD
        + "\n2 refused with 12 (flow 0: 2): " + WITH_12)
# Nobody asks from slot 2 to slot 100; position 7 is slot 103.
SILENT = (ONE % 1 + "ask 0\ntick 2\ncredit 0 3\ntick 98\nask 0\ntick 2\n"
          "credit 0 7\n",
          "passes: 106 calls, 102 slots in 26 frames\n\n" + HEAD +
          "   0   0.08     0.08         1        0             1        0\n")
# In slot 9 the cell of slot 1 came up a window ago, in slot 10 more.
IN_TIME = (ONE % 2 + "ask 0\ntick 9\n",
           "passes: 10 calls, 9 slots in 3 frames\n\n" + HEAD +
           "   0   0.33     0.33         1        0             1        0\n")
OVERDUE = (ONE % 2 + "ask 0\ntick 10\n",
           "fails: 11 calls, 10 slots in 3 frames\n\n" + HEAD +
           "   0   0.33     0.33         1        0             1        1  "
           "fails\n\nflow 0: " + NOT_BACK + BOARD)
BOTH_OVERDUE = (
    ONE % 2 + "ask 0\ntick 4\nask 0\ntick 10\n",
    "fails: 16 calls, 14 slots in 4 frames\n\n" + HEAD +
    "   0   0.50     0.50         1        0             1        2  fails\n\n"
    "flow 0: " + NOT_BACK + " (and 1 cell of later slots)" + BOARD)
# The one credit is for the cell of slot 1.
ONE_BACK = (
    ONE % 2 + "ask 0\ntick 4\nask 0\ntick 2\ncredit 0 7\ntick 8\n",
    "fails: 17 calls, 14 slots in 4 frames\n\n" + HEAD +
    "   0   0.50     0.50         1        0             1        1  fails\n\n"
    "flow 0: a cell of slot 5 is not given back since slot 6" + BOARD)
BACK_IN_TIME = (ONE % 2 + "ask 0\ntick 9\ncredit 0 2\n",
                "passes: 11 calls, 9 slots in 3 frames\n\n" + HEAD +
                "   0   0.33     0.33         1        0             1        "
                "0\n")
BACK_LATE = (ONE % 2 + "ask 0\ntick 10\ncredit 0 3\n",
             "fails: 12 calls, 10 slots in 3 frames\n\n" + HEAD +
             "   0   0.33     0.33         1        0             1        0  "
             "fails\n\nflow 0: a cell of slot 1 was given back in slot 10, "
             "more than a window later" + BOARD)
# The second tile of a frame, with a share of 1: no fault of the run.
PAST_SHARE = (ONE % 1 + "ask 0\ntick 2\nask 0\ncredit 0 3\n",
              "passes: 5 calls, 2 slots in 1 frame\n\n" + HEAD +
              "   0   2.00     1.00         1        1             1        0"
              "\n\nflow 0: 1 request past its share refused with 12, call 4 "
              "in slot 2: " + NOT_BACK + BOARD
              + "\n1 refused with 12 (flow 0: 1): " + WITH_12)
# Two tiles a frame are its share, and it has a cell alone, for slot 1.
AHEAD = (ONE.replace("share=1", "share=2") % 1 + "ask 0\nask 0\n",
         "passes: 2 calls, 0 slots in 1 frame\n\n" + HEAD +
         "   0   2.00     1.00         2        1             1        0\n\n"
         "flow 0: 1 request refused with 12 before the slots of its cells were "
         "over, call 2 in slot 0: it asks further ahead than its cells go\n\n"
         "1 refused with 12 (flow 0: 1): " + WITH_12)
# The same a slot later: slot 1 is the current one.
IN_ITS_SLOT = (AHEAD[0].replace("ask 0\nask", "ask 0\ntick\nask"),
               AHEAD[1].replace("2 calls, 0 slots", "3 calls, 1 slot").replace(
                   "call 2 in slot 0", "call 3 in slot 1"))
# One of flow 0's two cells is free from slot 7 on, and that is flow 1's (rule
# 6.2).
DATED_LATE = (
    "plan F=4 W=2 N=8\nflow share=3 cells=2 from=1 to=9\n"
    "flow share=1 cells=4 from=2 to=9\n"
    "ask 0\nask 0\ncredit 0 7\nask 1 departure=6\nask 0\n",
    "fails: 5 calls, 0 slots in 1 frame\n\n" + HEAD +
    "   0   3.00     2.00         3        1             2        0  fails\n"
    "   1   1.00     1.00         1        0             7        0\n\n"
    "flow 0: 1 request within its share refused with 12, call 5 in slot 0: "
    + WITH_12.replace(";", ":") + "\n1 refused with 12 (flow 0: 1): "
    + WITH_12)
FILES = (GOOD, WRONG_NODE, LATE, DEAD, SILENT, IN_TIME, OVERDUE, BOTH_OVERDUE,
         ONE_BACK, BACK_IN_TIME, BACK_LATE, PAST_SHARE, AHEAD, IN_ITS_SLOT,
         DATED_LATE)

# Slot 0 is lent to flow 1 and slot 4 to flow 0; the burst gets slot 5.
NO_CALL = "the record's kind is unknown, a filler is not 0, or fewer than " \
    "five bytes are left%s look at the writer of the call file\n"
NO_FLOW = "the word's or the credit's flow is not below n%s look at the " \
    "sender's flow number\n"
OF_ALL_CALLS = (
    "fails: 11 calls, 4 slots in 2 frames\n\n" + HEAD +
    "   0   1.00     0.50         2        1             1        0  fails\n"
    "   1   0.00     0.00         2        0             -        0\n\n"
    "flow 0: 1 request refused with 24, call 10 in slot 4: " + WITH_24 % ":" +
    "1 call of no flow refused with 8, call 9: " + NO_FLOW % ":" +
    "1 call of no flow refused with 16, call 11: " + NO_CALL % ":" + "\n"
    "1 refused with 8 (no flow: 1): " + NO_FLOW % ";" +
    "1 refused with 16 (no flow: 1): " + NO_CALL % ";" +
    "1 refused with 23 (no flow: 1): the link is not quiet; reset again when "
    "the slots have come up and the cells are back\n"
    "1 refused with 24 (flow 0: 1): " + WITH_24 % ";")
# Of OVERDUE: slot 1 was granted in slot 0.
OBJECT = {
    "verdict": "fails", "status": 1, "calls": 11, "slots": 10, "frames": 3,
    "flows": [{"flow": 0, "passes": False, "requests": 1, "grants": 1,
               "lent": 0, "asked": 1 / 3, "granted": 1 / 3, "promised": 1,
               "refused": {}, "refused_credits": {}, "longest_wait": 1,
               "longest_wait_slot": 1, "overdue": [1]}],
    "of_no_flow": {}, "notes": [], "faults": [
        {"sort": "overdue", "flow": 0, "slot": 1, "since": 2, "cells": 1,
         "says": "flow 0: " + NOT_BACK + BOARD[:-1]}]}
LATE_RECORD, LATER, PLAN_BYTES = 858, 60, 76    # of flights/dense
CALLS = 200_000             # of a long file, ticks and wrong requests
MORE_BYTES = 4_000_000      # that it may take more than a short one


def health(tree, text, *words):
    return tree.start("--health", *words, "-", input=text.encode())


def status_of(right):
    return FAILS if right.startswith("fails") else PASSES


# ---- what is said

def by_hand(tree):
    """Rules 26.4, 26.6 and 26.7: lines are counted by flow; rules 6.4 and 7.1
    say why a call is refused."""
    for text, right in FILES:
        wrong = trouble(health(tree, text), status_of(right), right.encode())
        if wrong:
            return "%s: %s, %s" % (text, wrong, health(
                tree, text).output.decode())
    return None


def lends_bursts_and_what_is_no_call(tree):
    """Rules 26.8 and 26.9."""
    ended = health(tree, ALL_CALLS, "--allcalls")
    if trouble(ended, FAILS, OF_ALL_CALLS.encode()):
        return ended.output.decode()
    ended = health(tree, TWO + "lend 2\n", "--allcalls")
    return trouble(ended, FAILS) or ended.output.decode().count(
        "the lend's mask has a bit for a flow that is not below n") != 2 \
        and ended.output


def flights_are_good(tree):
    """Both pass: the sparse flight's one refusal is the second tile of its
    frame, and a dense field asks further ahead than its cells go."""
    for name in ("sparse", "dense"):
        ended = tree.start("--health", ROOT / "flights" / name)
        said = ended.output.decode()
        wrong = trouble(ended) or (
            not said.startswith("passes: ") and said)
        if wrong:
            return "%s: %s" % (name, wrong)
    return None


def late_return_in_a_dense_field(tree):
    """A credit of flow 5 sixty records later: the cell is named, then what
    its sender did wrong; other flows pass."""
    data = (ROOT / "flights/dense").read_bytes()
    plan, records = data[:PLAN_BYTES], data[PLAN_BYTES:]
    cut, end = 5 * LATE_RECORD, 5 * (LATE_RECORD + 1 + LATER)
    records = (records[:cut] + records[cut + 5:end] + records[cut:cut + 5]
               + records[end:])
    ended = tree.start("--health", "-", input=plan + records)
    faults = [line.split(":")[0] + re.findall("refused with (..)", line)[0]
              for line in ended.output.decode().split("\n\n")[2].splitlines()]
    return trouble(ended, FAILS) or faults != [
        "flow 512", "flow 524", "flow 515"] and faults \
        or b"a cell of slot 267 is not given back since slot 268" \
        not in ended.output and ended.output


def objects(tree):
    """--json prints one object, with the same exit status."""
    ended = health(tree, OVERDUE[0], "--json")
    found = json.loads(ended.output)
    return trouble(ended, FAILS) or found != OBJECT and "%s" % found


# What ends otherwise, with its words: the status, the verdict, and how the
# error begins.
OTHER_ENDS = (
    (["nowhere"], NOT_PLAYED, "not played", "there is no file 'nowhere'"),
    (["a \"b\" c\\d\n"], NOT_PLAYED, "not played",
     "there is no file 'a \"b\" c\\d?'"),
    (["."], NOT_PLAYED, "not played", "'.' is a directory, not a file of"),
    (["one", "two"], NOT_PLAYED, "not played", "one file is played at a time"),
    (["wrong"], NOT_PLAYED, "not played", "'wrong', line 2: 'aks' is none of"),
    (["refused"], FAILS, "refused", "'refused' is refused with 7: the cells "
     "add to more than N\nwhat to do: "))


def objects_of_other_ends(tree):
    """The sentence stands on standard error, and in an object."""
    tree.write("wrong", "plan F=4 W=2 N=4\naks\n")
    tree.write("refused", ONE % 9)
    for words, status, verdict, begins in OTHER_ENDS:
        ended = tree.start("--health", "--json", *words, cwd=tree.root)
        found = json.loads(ended.output)
        if (ended.status, found["verdict"], found["status"]) != (
                status, verdict, status) or not (
                found["error"].startswith(begins)
                and ended.errors.startswith("play: " + begins[:12])):
            return "%s: %s, %s" % (words, found, ended.errors)
    return None


def members_are_on_the_man_page(tree):
    bold = set(re.findall(r"\w+", " ".join(re.findall(
        r"^\.BR? (.*)$", (ROOT / "docs/man/play.1").read_text(),
        re.MULTILINE))))
    members = {*OBJECT, *OBJECT["flows"][0], "sort", "says", "error"}
    return members - bold and "not named: %s" % sorted(members - bold)


def without_a_file(tree):
    """Rule 13.6's calls: the third asks further ahead than the cells go."""
    ended = tree.start("--health")
    return trouble(ended) or b"call 3 in slot 0: it asks further" \
        not in ended.output and ended.output


def cells_out_are_those_held():
    """Rule 26.10: after each line as many cells are out as the trace says
    that the flow holds at the last position of the window."""
    files = [edge.data for edge in ALLCALLS_EDGES if edge.lines[0] == "P 0"]
    files += [sort.generate(seed) for seed in range(3)
              for sort in (LENDS, RESETS, BURSTS)]
    for data in files:
        wrong = held_otherwise(*plan_and_lines(data, True))
        if wrong:
            return wrong
    return None


def held_otherwise(plan, lines):
    run = run_health.RunHealth(plan)
    for line in lines:
        run.add([line])
        words = line.split()
        flow = words[2 if words[0] == "L" else 4:][:1]
        if len(words) == 18 and len(run.flows[int(*flow)].out) != int(
                words[-1]):
            return "%s: %s" % (line, run.flows[int(*flow)].out)
    return None


# ---- what goes wrong

def wrong_words(tree):
    for words, says in (
            (("--json", tree.calls), "--json goes with --health alone"),
            (("--health", "--explain", tree.calls), "don't go together"),
            (("--health", "--window", tree.calls), "don't go together"),
            (("--health", tree.calls, tree.calls), "and 2 are named"),
            (("--health", "nowhere"), "there is no file 'nowhere'")):
        wrong = trouble(tree.start(*words), NOT_PLAYED, b"", says)
        if wrong:
            return "%s: %s" % (words, wrong)
    return trouble(health(tree, ONE % 1 + "lend 0\n"), NOT_PLAYED, b"",
                   "standard input, line 3: lend is a call for the program")


def refused_at_the_plan(tree):
    """Endless input and an empty one, with the reason."""
    endless = tree.start("--health", "-", stdin=open("/dev/zero"))
    empty = tree.start("--health", tree.write("empty", b""))
    return (trouble(endless, FAILS, b"", "standard input is refused with 1: ",
                    what_to_do(1))
            or trouble(empty, FAILS, b"", "empty' is refused with 1: the plan",
                       what_to_do(1))
            or trouble(health(tree, ONE % 9), FAILS, b"", "refused with 7: ",
                       what_to_do(7)))


def lost_output(tree):
    """A full disk, a closed output, a pipe that nobody reads."""
    good = [tree.command, "--health", ROOT / "flights/dense"]
    return (trouble(start(redirected(">/dev/full", *good)), NOT_WHOLE, b"",
                    "output was lost: standard output took no more")
            or trouble(start(redirected(">&-", *good)), NOT_WHOLE, b"",
                       "standard output is closed")
            or trouble(into_full_pipe([*good, "--json"]), NOT_WHOLE, None,
                       "output was lost: standard output took no more"))


def program_breaks_off(tree):
    for script, says in (
            ("echo P 0 4 2 4 1; echo E 1 1 1 9; cat >/dev/null; exit 3\n",
             "the trace is not whole"),
            ("cat >/dev/null; exit 3\n", "the trace is not whole"),
            ("cat >/dev/null\n", "it says nothing"),
            ("echo P 0 4 2 4 1; echo E 1 1 1 9; printf 'G 0 1'; cat >/dev/null"
             "; exit 3\n", "the trace is not whole"),
            ("echo P 0 4 2 4 1; echo E 1 1 1 9; echo Q; cat >/dev/null\n",
             "after call 0 dometrace writes a line that is none of a trace")):
        tree.instead(script)
        wrong = trouble(tree.start("--health", tree.calls), NOT_WHOLE, b"",
                        says)
        if wrong:
            return "%s: %s" % (script, wrong)
    return None


def built_where_it_is_missing(tree):
    """It is dometrace that rt is asked for, and no other program."""
    tree.write_rt(tree.leaves("away"))
    tree.path = "%s:%s" % (tree.root / "bin", tree.path)
    tree.program.rename(tree.root / "away")
    ended = tree.start("--health", tree.calls)
    return trouble(ended, PASSES, None, "target/bin/dometrace is missing: it "
                   "is proved and built first") or (
        tree.rt_words() != tree.asked() and tree.rt_words())


def broken_off(tree):
    """A sentence says how far it came."""
    process = subprocess.Popen(
        [tree.command, "--health", "-"], stdin=subprocess.PIPE,
        stdout=subprocess.PIPE, stderr=subprocess.PIPE)
    process.stdin.write(tree.calls.read_bytes())
    process.stdin.flush()
    wait_for_child(process)
    process.send_signal(signal.SIGINT)
    output, errors = process.communicate(timeout=LIMIT)
    right = (process.returncode, output) == (NOT_WHOLE, b"") and re.fullmatch(
        rb"play: broken off (at the plan|after call [01], in slot [01])\n",
        errors)
    return not right and "status %d, %r, %r" % (process.returncode, output,
                                                errors)


def wait_for_child(process, name="dometrace"):
    """Until a process has started a program of this name."""
    until = time.monotonic() + LIMIT
    while process.poll() is None and time.monotonic() < until:
        time.sleep(0.05)
        if name in children_of(process.pid):
            return


def children_of(number):
    """The names of a process's children."""
    names = []
    for child in Path("/proc/%d/task/%d/children" % (number, number)
                      ).read_text().split():
        try:
            names.append(Path("/proc/%s/comm" % child).read_text().strip())
        except OSError:
            pass                # it has ended
    return names


def constant_memory(tree):
    taken = []
    pair = call_bytes.TICK + call_bytes.request(8, 0)
    for calls in (4, CALLS):
        path = tree.write("long", BASE + pair * (calls // 2))
        most, status = most_memory([tree.command, "--health", path])
        taken.append(most)
        if status != FAILS:
            return "status %d" % status
    return taken[1] - taken[0] > MORE_BYTES and "%s" % taken


TESTS = (by_hand, lends_bursts_and_what_is_no_call, flights_are_good,
         late_return_in_a_dense_field, objects, objects_of_other_ends,
         members_are_on_the_man_page,
         without_a_file, wrong_words, refused_at_the_plan, lost_output,
         program_breaks_off, built_where_it_is_missing, broken_off,
         constant_memory)


def tests(programs):
    for name, test in in_traced_trees(TESTS):
        yield name.replace("play:", "play, health:"), test
    yield "health: cells out are those held", cells_out_are_those_held

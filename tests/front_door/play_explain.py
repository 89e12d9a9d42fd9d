"""./play in words: rule 13.6's listing, --explain, and the summary."""

import re
import select
import signal
import subprocess

import call_bytes
from edges import from_the_paper, refusals_page
from edges.edge_maker import BASE
from front_door.command import (
    LIMIT, into_full_pipe, redirected, start, trouble)
from front_door.play_tree import (
    NOT_PLAYED, NOT_WHOLE, PLAYED, REFUSED, in_traced_trees)
from front_door.remedies import what_to_do
from front_door.show_tools import (
    explain, explained, paragraph, plan_and_lines)

LISTING = b"P 0\nG 1\nG 2\nR 12\nC\nG 4\nG 3\nT 0\n"    # by rule 13.6

# F = 4 and T = 8: positions 0 to 3 are in frame 0, 4 to 7 in frame 1.
IN_WORDS = """\
  P 0   the plan is accepted: F = 4 slots to a frame, W = 2 frames in the
        window, T = 8 positions, N = 4 places in the buffer
        flow 0: from node 1 to node 9, share 2, 2 cells
        flow 1: from node 2 to node 9, share 2, 2 cells

    1   flow 0 asks for a slot: quantum 0, departure 0
  G 1   granted slot 1 (position 1, frame 0); there it holds 1 of its 2 cells
    2   flow 0 asks for a slot: quantum 1, departure 0
  G 2   granted slot 2 (position 2, frame 0); there it holds 2 of its 2 cells
    3   flow 0 asks for a slot: quantum 2, departure 0
  R 12  refused with 12: the flow has share left in the newest frame, but no
        position that would be valid, whatever the word's departure: its cells
        are all held, or the slots are booked (here all of its 2 cells are
        held); what to do: wait for credits or the next frame
    4   flow 0 gives a cell back, dated position 4
  C     taken: from slot 4 (position 4, frame 1) on flow 0 holds one less
    5   flow 0 asks for a slot: quantum 2, departure 0
  G 4   granted slot 4 (position 4, frame 1); there it holds 2 of its 2 cells
    6   flow 1 asks for a slot: quantum 0, departure 0
  G 3   granted slot 3 (position 3, frame 0); there it holds 1 of its 2 cells
    7   a tick
  T 0   slot 1 (position 1, frame 0) has come up: it is flow 0's

Summary
        flow 0: 4 requests, 3 granted, 1 refused (1 with 12)
            1 credit, 1 taken, 0 refused; held at most 2 of 2 cells
        flow 1: 1 request, 1 granted, 0 refused
            0 credits, 0 taken, 0 refused; held at most 1 of 2 cells
        1 slot came up: 1 booked, 0 idle
"""

# For allcalls, of the same plan: slots 0 and 4 are lent, 1 to 3 stay idle,
# and 4 is flow 0's second cell in use, so that it holds 2 there.
ALL_CALLS = """\
plan F=4 W=2 N=4
flow share=2 cells=2 from=1 to=9
flow share=2 cells=2 from=2 to=9
lend 1
credit 1 1
reset
tick 4
lend 0 1
burst 2
  ask 0
  ask 5 to=9
ask 0 number=9
bytes 07 00 00
"""
ALL_IN_WORDS = """\
    1   the current slot is to be lent to flow 1
  L 1   lent to flow 1: slot 0 (position 0, frame 0)
    2   flow 1 gives a cell back, dated position 1
  C     taken: from slot 1 (position 1, frame 0) on flow 1 holds one less
    3   a local reset
  R 23  refused with 23:
    4   a tick
  T -   slot 1 (position 1, frame 0) has come up: nobody booked it
    5   a tick
  T -   slot 2 (position 2, frame 0) has come up: nobody booked it
    6   a tick
  T -   slot 3 (position 3, frame 0) has come up: nobody booked it
    7   a tick
  T -   slot 4 (position 4, frame 1) has come up, with a frame change: nobody
        booked it
    8   the current slot is to be lent to flow 0 or 1
  L 0   lent to flow 0: slot 4 (position 4, frame 1)
    9   a burst of 2 requests
  B 0 5 flow 0 asks for a slot: quantum 0, departure 4: granted slot 5 (position
        5, frame 1)
  B 8 0 flow 5 asks for a slot: quantum 0, departure 4, to node 9: refused with
   10   flow 0 asks for a slot: quantum 9, departure 4
  R 24  refused with 24:
   11   3 bytes that are no call: 07 00 00
  R 16  refused with 16:
Summary
        flow 0: 2 requests, 1 granted, 1 refused (1 with 24); lent 1 slot
            0 credits, 0 taken, 0 refused; held at most 2 of 2 cells
        flow 1: 0 requests, 0 granted, 0 refused; lent 1 slot
            1 credit, 1 taken, 0 refused; held at most 1 of 2 cells
        of no flow: 3 calls refused (1 with 8, 1 with 16, 1 with 23)
        4 slots came up: 0 booked, 1 lent, 3 idle
"""


# ---- files in words

def without_a_file(tree):
    """Rule 13.6's listing in words, from any folder."""
    return trouble(tree.start(cwd="/"), output=IN_WORDS.encode())


def text_and_bytes(tree):
    """A text, its bytes, and both as standard input."""
    data = from_the_paper.EDGES[0].data
    text = b"# by hand\nplan F=4 W=2 N=4\nflow share=2 cells=2 from=1 to=9\n" \
        b"flow share=2 cells=2 from=2 to=9\nask 0\nask 0\nask 0\n" \
        b"credit 0 4\nask 0 again\nask 1\ntick\n"
    for content in (data, text):
        path = tree.write("a 'b' c", content)
        wrong = trouble(tree.start("--explain", path),
                        output=IN_WORDS.encode()) or trouble(
            tree.start("--explain", "-", input=content),
            output=IN_WORDS.encode())
        if wrong:
            return wrong
    return None


def with_all_calls(tree):
    """Lends, a burst and what is refused."""
    path = tree.write("all.calls", ALL_CALLS)
    ended = tree.start("--allcalls", "--explain", path)
    said = ended.output.decode()
    for line in ALL_IN_WORDS.splitlines():
        if line not in said:
            return "no line %r in %s" % (line, said)
    return trouble(ended) or trouble(
        tree.start("--explain", path), NOT_PLAYED, b"",
        "line 4: lend is a call for the program allcalls")


# F = 4 and T = 8.  Flow 0 has slots 1, 2, 4 and 5, asked for in slot 0.  The
# tile of slot 4 can't leave in slot 0, and may in slot 3.  The credit in slot 6
# is of flow 1, and the lend before it flow 0's; in slot 10 the credit is dated
# slot 11, which flow 0 has not booked; a tick stands between the lend in slot
# 11 and the credit that is dated slot 13.
SENT_AHEAD = """\
plan F=4 W=2 N=16
flow share=2 cells=12 from=1 to=9
flow share=2 cells=4 from=2 to=9
ask 0
ask 0
ask 0
ask 0
lend 0
credit 0 4
tick 3
lend 0
credit 0 4
tick
ask 0
tick 2
ask 1
lend 0
credit 1 7
tick 2
ask 0
ask 0
ask 0
tick 2
lend 0
credit 0 3
tick
lend 0
tick
credit 0 5
"""
AHEAD_IN_WORDS = (
    "C taken: from slot 4 (position 4, frame 1) on flow 0 holds one less; "
    "with the lend before it the tile of slot 4 may leave ahead, in slot 3, "
    "if it came in an earlier one ",
    "flow 0: 8 requests, 8 granted, 0 refused; lent 5 slots, 1 of them in a "
    "pair ",
    " 1 pair of a lend and a credit, by which a tile may leave ahead ")


def a_tile_sent_ahead(tree):
    """A lend and the credit after it, where its flow has booked the slot of
    its date, by a request in an earlier slot; of other credits it is not
    said."""
    ended = tree.start("--allcalls", "--explain", tree.write(
        "ahead.calls", SENT_AHEAD))
    said = plain(ended.output.decode())
    missing = [words for words in AHEAD_IN_WORDS if words not in said]
    return trouble(ended) or (
        missing and "not said: %s" % missing
        or said.count("ahead") != 2 and "said too often: " + said
        or said.count(" C taken") != 5 and "credits: " + said)


def the_dense_flight(tree):
    """What the summary adds up to, against the bare listing."""
    lines = tree.start("--dense").output.decode().splitlines()
    said = tree.start("--explain", "--dense").output.decode()
    idle = lines.count("T -")
    ticks = sum(line.startswith("T") for line in lines)
    counts = [sum(map(int, re.findall(pattern, said))) for pattern in (
        r"(\d+) granted, ", r"granted, (\d+) refused", r"(\d+) taken")]
    if counts != [sum(line.startswith(letter) for line in lines)
                  for letter in "GRC"]:
        return "granted, refused, taken: %s" % counts
    last = "        %d slots came up: %d booked, %d idle\n" % (
        ticks, ticks - idle, idle)
    return None if said.endswith(last) else said[-200:]


def long_lines_of_the_summary():
    """What doesn't fit a line goes on further in than what comes next."""
    calls = [call_bytes.request(8, 0), call_bytes.request(9, 0, 0, 8),
             call_bytes.request(9, 0, 1)]
    said = explained(BASE + 100 * b"".join(calls))
    wanted = (
        "        flow 0: 300 requests, 0 granted, 300 refused (100 with 9, "
        "100 with 10,\n"
        "            100 with 24)\n"
        "            0 credits, 0 taken, 0 refused; held at most 0 of ")
    return None if wanted in said else said[-400:]


def numbers_of_calls():
    """A number stands to the right up to five digits, and however long it is a
    blank stands behind it."""
    plan, lines = plan_and_lines(BASE + 2 * call_bytes.TICK)
    for calls, right in ((0, ["    1   a", "    2   a"]),
                         (9998, [" 9999   a", "10000   a"]),
                         (99998, ["99999   a", "100000  a"]),
                         (999998, ["999999  a", "1000000 a"]),
                         (9999998, ["9999999 a", "10000000 a"])):
        said = []
        telling = explain.Telling(plan, said.append)
        telling.summary.calls = calls
        telling.add(lines)
        found = [line[:line.index(" tick")] for line in
                 said[-1].splitlines()[::2]]
        if found != right:
            return "%s for %s" % (found, right)
    return None


def cut_behind_a_slot():
    """A sentence on a slot is cut as every other is, wherever its number
    ends."""
    plan, lines = plan_and_lines(BASE + call_bytes.request(9, 0)
                                 + call_bytes.credit(0, 2) + call_bytes.TICK)
    for digits in range(1, 20):
        said = []
        telling = explain.Telling(plan, said.append)
        telling.places.texts = ["slot " + "1" * digits] * 8
        telling.add(lines)
        for line, words in zip(("  G 1   granted ", "  C     taken: from ",
                                "  T 0   "),
                               ("; there it holds 1 of its 2 cells",
                                " on flow 0 holds one less",
                                " has come up: it is flow 0's")):
            head, text = line[:8], line[8:] + "slot " + "1" * digits + words
            if paragraph(head, text) not in said[-1]:
                return "%r not in %s" % (paragraph(head, text), said[-1])
    return None


# ---- refusals

def plain(text):
    return " ".join(text.split())


def every_refusal():
    """Each number's sentence, on the inputs of docs/REFUSALS.md."""
    for only in (None, "allcalls"):
        for number, data, last in refusals_page.examples(only):
            said = explained(data, bool(only))
            when = [row[1] for row in refusals_page.refusal_rows(
                refusals_page.page()) if row[0] == number and row[4] == only]
            if "refused with %d: %s" % (number, when[0].split(" (")[0]) \
                    not in re.sub(r" \(here[^)]*\)", "", plain(said)):
                return "%s: %s" % (last, said)
    return None


def number_that_is_expected(tree):
    """24 says which number was expected: one word was granted."""
    calls = tree.write("number", BASE + 2 * call_bytes.request(9, 0))
    ended = tree.start("--explain", calls)
    said = plain(ended.output.decode())
    return trouble(ended) or (
        "modulo 1,024 (here 1 is expected); what to do: go on" not in said
        and said)


def refused_plan(tree):
    """It is said, with what to do, and the status is 1."""
    for content, says, last in (
            (b"plan F=65 W=2 N=4\nflow share=1 cells=1 from=1 to=9\n",
             "P 3 the plan is refused with 3: F is not 1 to 64",
             what_to_do(3)),
            (b"no plan at all", "P 1 the plan is refused with 1: ",
             "a text for tools/calls begins with the word plan")):
        ended = tree.start("--explain", tree.write("refused", content))
        said = plain(ended.output.decode())
        wrong = trouble(ended, REFUSED) or (
            not (said.startswith(says) and said.endswith(last)) and said)
        if wrong:
            return wrong
    return None


# ---- what can't be said

def wrong_text(tree):
    calls = tree.write("text", "plan F=4 W=2 N=4\ntick 5\naks 0\n")
    return trouble(tree.start("--explain", calls), NOT_PLAYED, b"",
                   "play: '%s', line 3: 'aks' is none of" % calls)


PLAN_LINES = "cat >/dev/null\necho P 0 4 2 4 1\necho E 2 2 1 9\n"
OF_THE_PLAN = b"""\
  P 0   the plan is accepted: F = 4 slots to a frame, W = 2 frames in the
        window, T = 8 positions, N = 4 places in the buffer
        flow 0: from node 1 to node 9, share 2, 2 cells

"""


def program_breaks_off(tree):
    """What was said before stands there, and that it is not whole is said."""
    for script, output, says in (
            (PLAN_LINES + "exit 1\n", OF_THE_PLAN,
             "play: dometrace broke off: the trace is not whole"),
            ("cat >/dev/null\nexit 1\n", b"",
             "play: dometrace broke off: the trace is not whole"),
            (PLAN_LINES + 'echo "dometrace: input was lost" >&2\n',
             OF_THE_PLAN, "play: dometrace: input was lost"),
            ("echo P 0\n", b"", "after call 0 dometrace writes a line that is "
             "none of a trace"),
            (PLAN_LINES + "echo G 0\n", OF_THE_PLAN,
             "after call 0 dometrace writes a line that is none of a trace")):
        tree.instead(script)
        wrong = trouble(tree.start("--explain", tree.calls), NOT_WHOLE,
                        output, says)
        if wrong:
            return "%s: %s" % (script, wrong)
    return None


# ---- the summary alone

def summary_alone(tree):
    """The lines that --explain ends with, further left."""
    whole = tree.start("--explain", "--dense").output.decode()
    lines = whole.partition("\nSummary\n")[2].splitlines()
    return trouble(tree.start("--summary", "--dense"), output="".join(
        line[8:] + "\n" for line in lines).encode()) or trouble(
        tree.start("--summary", tree.write("text", "plan F=65 W=2 N=4\n")),
        REFUSED, None) or trouble(
        tree.start("--summary", "--explain", tree.calls), NOT_PLAYED, b"",
        "don't go together")


# ---- as it comes

def as_it_comes(tree):
    """Each call is said while the input is still open."""
    process = subprocess.Popen([tree.command, "--explain", "-"], bufsize=0,
                               stdin=subprocess.PIPE, stdout=subprocess.PIPE)
    heard = b""
    for piece, words in ((BASE, b"flow 1: from node 2"),
                         (call_bytes.TICK, b"slot 1 (position 1, frame 0)"),
                         (call_bytes.TICK, b"slot 2 (position 2, frame 0)")):
        process.stdin.write(piece)
        while words not in heard and select.select(
                [process.stdout], [], [], LIMIT)[0]:
            heard += process.stdout.read(4096)
        if words not in heard:
            break
    process.stdin.close()
    process.stdout.close()
    process.wait(timeout=LIMIT)
    return words not in heard and "%s" % heard


def broken_off(tree):
    """A break says how far it came, in a line."""
    process = subprocess.Popen(
        [tree.command, "--explain", "-"], stdin=subprocess.PIPE,
        stdout=subprocess.PIPE, stderr=subprocess.PIPE, bufsize=0)
    process.stdin.write(BASE + 3 * call_bytes.TICK)
    heard = b""
    while b"slot 3 (position 3" not in heard and select.select(
            [process.stdout], [], [], LIMIT)[0]:
        heard += process.stdout.read(4096)
    process.send_signal(signal.SIGINT)
    _, errors = process.communicate(timeout=LIMIT)
    return (process.returncode, errors) != (
        NOT_WHOLE, b"play: broken off after call 3, in slot 3\n") and (
        "status %d, %r" % (process.returncode, errors))


def lost_words(tree):
    many = tree.write("many", BASE + 500 * call_bytes.TICK)
    return (trouble(into_full_pipe([tree.command, "--explain", many]),
                    NOT_WHOLE, says="play: output was lost")
            or trouble(start(redirected(">&-", tree.command, "--explain",
                                        many)), NOT_WHOLE, b"",
                       "standard output is closed"))


def no_python(tree):
    """With no file the bare listing is played, and it is said why."""
    tree.only_tools()
    return (trouble(tree.start(), PLAYED, LISTING,
                    "python3 is not on the path: this is the bare listing")
            or trouble(tree.start("--explain", tree.calls), NOT_PLAYED, b"",
                       "python3, which --explain needs, is not on the path"))


TESTS = (
    without_a_file, text_and_bytes, the_dense_flight,
    number_that_is_expected, refused_plan, wrong_text, program_breaks_off,
    summary_alone, as_it_comes, broken_off, lost_words, no_python,
    with_all_calls, a_tile_sent_ahead)


def tests(programs):
    yield "./play: every refusal in words", every_refusal
    yield "./play: long lines of the summary", long_lines_of_the_summary
    yield "./play: numbers of calls", numbers_of_calls
    yield "./play: sentences cut behind a slot", cut_behind_a_slot
    yield from in_traced_trees(TESTS)

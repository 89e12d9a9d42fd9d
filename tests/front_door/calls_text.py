"""tools/calls: call files as text, there and back."""

import os
import select
import signal
import subprocess

from edges import from_the_paper
from edges.all_edges import ALLCALLS_EDGES, EDGES
from front_door.check_long import most_memory
from front_door.command import LIMIT, redirected, start, trouble
from front_door.play_tree import SHOW
from front_door.show_tools import call_text, text_lines
from front_door.tree import Tree, named
from generator.seeds import ANY, BURSTS, NUMBERS

WRITTEN, WRONG_TEXT, NOT_READ, NOT_WHOLE = range(4)     # exit statuses
LISTING = from_the_paper.EDGES[0].data
PLAN = "plan F=4 W=2 N=4\nflow share=2 cells=2 from=1 to=9\n"
CALLS = 200_000             # of a long file
MORE_BYTES = 6_000_000      # that it may take more than a short one
PLAN_BYTES = "10 00 01 00 0C 00 04 00 02 00 04 00 02 02 01 09"

# Lines behind the plan, and their bytes.  A word is 9 << 26 for the node, the
# flow << 20, the number << 10 and the departure.
LINES = (
    ("ask 0", "01 00 00 00 24"),
    ("ask 0 number=3 departure=5", "01 05 0C 00 24"),
    ("ask 0 departure=5 number=3", "01 05 0C 00 24"),
    ("ask 0\nask 0", "01 00 00 00 24 01 00 04 00 24"),
    ("ask 0\nask 0 again\nask 0",
     "01 00 00 00 24 01 00 00 00 24 01 00 04 00 24"),
    ("ask 0 number=1023\nask 0", "01 00 FC 0F 24 01 00 04 00 24"),
    ("ask 0 number=7 again\nask 0", "01 00 1C 00 24 01 00 00 00 24"),
    ("tick\nask 0", "03 00 00 00 00 01 01 00 00 24"),
    ("tick 9\nask 0", 9 * "03 00 00 00 00 " + "01 01 00 00 24"),
    ("ask 5 to=9", "01 00 00 50 24"),
    ("ask 0 to=8", "01 00 00 00 20"),
    ("credit 0 4", "02 00 04 00 00"),
    ("credit 255 0xFFFF", "02 FF FF FF 00"),
    ("word 0x24000000", "01 00 00 00 24"),
    ("word 4294967295\nask 0", "01 FF FF FF FF 01 00 00 00 24"),
    ("bytes 01 fF", "01 FF"),
    ("\n  tick # one\r\n# nothing\n", "03 00 00 00 00"),
    ("lend 0 2", "04 05 00 00 00"),
    ("lend", "04 00 00 00 00"),
    ("lend 15", "04 00 80 00 00"),
    ("reset", "05 00 00 00 00"),
    ("burst 2\n  ask 0\n  word 1\nask 0",
     "06 02 00 00 00 00 00 00 24 01 00 00 00 01 00 04 00 24"),
    ("burst 0", "06 00 00 00 00"),
)

# Lines behind the plan that are wrong: which of them, and the words for it.
WRONG = (
    ("aks 0", 3, "'aks' is none of plan, flow, ask"),
    ("tick\nask", 4, "an ask names its flow"),
    ("ask 64", 3, "the flow has to be a number from 0 to 63, not '64'"),
    ("ask 1", 3, "the plan has no flow 1: to= has to be given"),
    ("ask 0 again", 3, "flow 0 has asked for nothing so far: number= has"),
    ("ask 0 number=1024", 3, "number has to be a number from 0 to 1023"),
    ("ask 0 departure=-1", 3, "from 0 to 1023, not '-1'"),
    ("ask 0 departure=", 3, "departure has to be a number"),
    ("ask 0 soon=1", 3, "'soon=1' is none of number=, departure=, to="),
    ("ask 0 to=9 to=9", 3, "to= stands there twice"),
    ("credit 0", 3, "a credit names a flow and a position"),
    ("credit 0 65536", 3, "the position has to be a number from 0 to 65535"),
    ("tick 0", 3, "from 1 to 1000000"),
    ("tick -1", 3, "from 1 to 1000000"),
    ("tick 1_0", 3, "from 1 to 1000000"),
    ("word 0x100000000", 3, "from 0 to 4294967295"),
    ("bytes 1", 3, "pairs of hexadecimal digits"),
    ("bytes 0g", 3, "a byte has to be"),
    ("plan F=4 W=2 N=4", 3, "a plan stands once"),
    ("tick\nflow share=1 cells=1 from=1 to=2", 4, "before the first call"),
    ("flow share=1 cells=1 from=1", 3, "to= is missing"),
    ("flow share=256 cells=1 from=1 to=2", 3, "share has to be a number"),
    ("burst 2\nask 0\ntick", 5, "lacks 1 of its words"),
    ("burst 21", 3, "the count has to be a number from 0 to 20"),
    ("lend 16", 3, "from 0 to 15"),
    ("reset 1", 3, "a reset stands alone"),
)


class CallsTree(Tree):
    script, crate = "tools/calls", "domelink"
    needed = ("flights/listing", "flights/listing.calls",
              "flights/late-credits.calls", *SHOW)


# ---- without the command

def every_line():
    for lines, data in LINES:
        made = call_text.bytes_of(PLAN + lines, True)
        if made != bytes.fromhex(PLAN_BYTES + data):
            return "%r: %s" % (lines, made.hex(" "))
    return None


def said_of(text, all_calls=True):
    """What is said of a wrong text."""
    try:
        call_text.bytes_of(text, all_calls)
    except call_text.TextError as wrong:
        return str(wrong)
    return "nothing"


def wrong_lines():
    for lines, place, words in WRONG:
        said = said_of(PLAN + lines)
        if not said.startswith("line %d: " % place) or words not in said:
            return "%r: %s" % (lines, said)
    return None


def wrong_wholes():
    """No plan, an end within a burst, and calls of allcalls alone."""
    for text, all_calls, words in (
            ("ask 0", True, "line 1: the first line has to be a plan"),
            ("bytes 00\nplan F=1 W=2 N=1", True, "line 2: a plan stands once"),
            (PLAN + "burst 1\n", True, "the text ends, and the burst"),
            (PLAN + "lend 0\n", False, "line 3: lend is a call for the")):
        if words not in said_of(text, all_calls):
            return "%r: %s" % (text, said_of(text, all_calls))
    return None


def there_and_back():
    """Every file's text has its bytes, whichever records are calls."""
    files = [edge.data for edge in EDGES + ALLCALLS_EDGES]
    for sort in (ANY, NUMBERS, BURSTS):
        files += [sort.generate(seed) for seed in range(12)
                  if "long" not in sort.kind_of(seed)]
    for data in (file[:2000] for file in files):
        for all_calls in (False, True):
            text = text_lines.text_of(data, all_calls)
            if call_text.bytes_of(text, all_calls) != data:
                return "%s ..: %s .." % (data[:100].hex(" "), text[:200])
    return None


def short_text():
    """An ask says only what it has to."""
    for lines in ("ask 0\nask 0 again\nask 0\ntick 5\nask 0 departure=0\n",
                  "ask 0 number=5\nask 0\nask 3 to=1\n",
                  "lend 0 3\nreset\nburst 2\n  ask 0\n  ask 0 again\n",
                  "bytes 04 00 00 01 00\ncredit 7 300\nbytes 01 02\n"):
        text = PLAN.replace("to=9", "to=9  # flow 0") + lines
        made = text_lines.text_of(call_text.bytes_of(text, True), True)
        if made != text:
            return made
    return None


def many_ticks():
    """More than a line takes: the text has two."""
    data = bytes.fromhex(PLAN_BYTES + "03 00 00 00 00")
    data = data[:-5] + 1000002 * data[-5:]
    text = text_lines.text_of(data)
    return (text.splitlines()[2:] != ["tick 1000000", "tick 2"]
            or call_text.bytes_of(text) != data) and text


# ---- the command

def the_listing(tree):
    """The text of rule 13.6's calls, and the file beside it."""
    text = tree.root / "flights/listing.calls"
    return (trouble(tree.start(text), output=LISTING)
            or trouble(tree.start("-", input=text.read_bytes()),
                       output=LISTING)
            or (tree.root / "flights/listing").read_bytes() != LISTING
            and "flights/listing has other bytes")


def late_credits(tree):
    return trouble(tree.start(tree.root / "flights/late-credits.calls"),
                   output=from_the_paper.EDGES[1].data)


def back(tree):
    return trouble(tree.start("--back", tree.root / "flights/listing"),
                   output=(b"plan F=4 W=2 N=4\n"
                           b"flow share=2 cells=2 from=1 to=9  # flow 0\n"
                           b"flow share=2 cells=2 from=2 to=9  # flow 1\n"
                           b"ask 0\nask 0\nask 0\ncredit 0 4\nask 0 again\n"
                           b"ask 1\ntick\n"))


def back_of_a_text(tree):
    """It is not taken for bytes, whatever stands in front of the plan."""
    text = tree.root / "flights/listing.calls"
    remark = b"# by hand\n\n" + PLAN.encode()
    return (trouble(tree.start("--back", text), WRONG_TEXT, b"",
                    "calls: '%s' is a text already" % text)
            or trouble(tree.start("--allcalls", "--back", "-", input=remark),
                       WRONG_TEXT, b"",
                       "calls: standard input is a text already"))


def bytes_as_a_text(tree):
    """A call file is not read as a text."""
    path = tree.root / "flights/listing"
    return trouble(tree.start(path), WRONG_TEXT, b"",
                   "calls: '%s' is a call file already" % path)


def either(tree):
    """--bytes takes a text and a file of bytes."""
    for name in ("flights/listing", "flights/listing.calls"):
        wrong = trouble(tree.start("--bytes", tree.root / name),
                        output=LISTING)
        if wrong:
            return wrong
    return None


def wrong_text(tree):
    path = tree.write("wrong", PLAN + "tick\naks 0\n")
    return (trouble(tree.start(path), WRONG_TEXT, b"",
                    "calls: '%s', line 4: 'aks' is none of" % path)
            or trouble(tree.start("--allcalls", "-", input=b"lend"),
                       WRONG_TEXT, b"", "calls: standard input, line 1: "))


def wrong_words(tree):
    for words, says in (
            ((), "one file is read, and 0 are named"),
            (("a", "b"), "one file is read, and 2 are named"),
            (("--forth", "a"), "there is no option '--forth'"),
            (("--back", "--version"), "--version stands alone"),
            (("--back", "--help"), "--help stands alone"),
            (("nowhere",), "'nowhere' can't be read"),
            ((tree.root,), "can't be read")):
        wrong = trouble(tree.start(*words), NOT_READ, b"", says)
        if wrong:
            return wrong
    return trouble(start(redirected("<&-", tree.command, "-")), NOT_READ, b"",
                   "standard input is closed")


def lost_output(tree):
    text = tree.root / "flights/listing.calls"
    wrong = trouble(start(redirected(">&-", tree.command, text)), NOT_WHOLE,
                    b"", "standard output is closed")
    if wrong or not os.path.exists("/dev/full"):
        return wrong
    return trouble(start(redirected(">/dev/full", tree.command, text)),
                   NOT_WHOLE, b"", "output was lost")


def no_text_at_all(tree):
    """Endless input is refused at its first line."""
    return trouble(tree.start("-", stdin=open("/dev/zero")), WRONG_TEXT, b"",
                   "calls: standard input, line 1: it has more than 65536 "
                   "bytes, so that this is no text")


def constant_memory(tree):
    """A call file and its text, there and back."""
    taken = []
    for calls in (4, CALLS):
        data = tree.write("long", bytes.fromhex(PLAN_BYTES) + calls // 2
                          * bytes.fromhex("03 00 00 00 00 02 00 04 00 00"))
        text = tree.write("text", PLAN + calls // 2 * "tick\ncredit 0 4\n")
        for words in (["--back", data], [text], ["--bytes", text]):
            most, status = most_memory([tree.command, *words])
            if status:
                return "status %d" % status
            taken.append(most)
    more = [long - short for short, long in zip(taken, taken[3:])]
    return max(more) > MORE_BYTES and "%s" % taken


def broken_off(tree):
    """A break says how far it came, in a line."""
    process = subprocess.Popen(
        [tree.command, "--back", "-"], stdin=subprocess.PIPE,
        stdout=subprocess.PIPE, stderr=subprocess.PIPE, bufsize=0)
    process.stdin.write(bytes.fromhex(PLAN_BYTES + 20 * "02 00 04 00 00"))
    heard = b""
    while heard.count(b"credit") < 20 and select.select(
            [process.stdout], [], [], LIMIT)[0]:
        heard += process.stdout.read(4096)
    process.send_signal(signal.SIGINT)
    _, errors = process.communicate(timeout=LIMIT)
    return (process.returncode, errors) != (
        NOT_WHOLE, b"calls: broken off after call 20\n") and (
        "status %d, %r" % (process.returncode, errors))


def no_python(tree):
    tree.only_tools()
    return trouble(tree.start("-"), NOT_READ, b"",
                   "python3, which this needs, is not on the path")


def help_page(tree):
    ended = tree.start("--help")
    lines = ended.output.decode().splitlines()
    return trouble(ended) or (
        (len(lines) > 40 or max(map(len, lines)) > 80) and "too large")


APART = (every_line, wrong_lines, wrong_wholes, there_and_back, short_text,
         many_ticks)
TESTS = (the_listing, late_credits, back, back_of_a_text, bytes_as_a_text,
         either, wrong_text, no_text_at_all, constant_memory, broken_off,
         wrong_words, lost_output, no_python, help_page)


def tests(programs):
    for test in APART:
        yield "./tools/calls: " + test.__name__.replace("_", " "), test
    yield from named(CallsTree, TESTS, programs)

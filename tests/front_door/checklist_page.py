"""docs/CHECKLIST.md: a form of boxes, each complete; its commands print what
the page calls good, its faults what it calls bad; and each statement stands
where the page says."""

import os
import re
import tempfile

from edges.refusals_page import cells_of
from front_door.command import ROOT, start

PAGE = ROOT / "docs/CHECKLIST.md"
BOXES = ["Plan", "Plan, over the mesh", "Sparse sky", "Dense field",
         "Health of a run", "Console log"]
PARTS = ["Command:", "Good:", "Bad:", "What to do:", "It can't see"]
QUOTED = re.compile(r"`([^`]+)`")
FOLDERS = ("crates/", "docs/", "flights/", "tests/run")
TREE = ("play", "plan", "check-log", "flights", "target", "tools", "docs")

# What is done before a box's commands, as a reader would with files of his
# own.
BEFORE = {"Health of a run": "cp flights/sparse show.calls",
          "Console log": "cp flights/sparse show.calls; "
          "cp flights/sparse.sent sent"}
# Faults, by the words that the page calls bad.  The sparse flight has the
# title, flow 2, in slots 7, 9, 16 and 24.
WRONG_NODE = ("sed 's/^ask 1 number=0/& to=8/' flights/sparse.txt "
              "| tools/calls - >wrong; ./play wrong >other; ")
LOG = "./play flights/sparse >booked; %s ./check-log --calls flights/sparse %s"
# A credit of flow 5, the 859th record of the dense flight, sixty later.
LATE_CREDIT = (
    "head -c $((76 + 5 * 858)) flights/dense >late; "
    "tail -c +$((77 + 5 * 859)) flights/dense | head -c 300 >>late; "
    "tail -c +$((77 + 5 * 858)) flights/dense | head -c 5 >>late; "
    "tail -c +$((77 + 5 * 919)) flights/dense >>late; ")
# A flow of share 1, whose first slot is slot 1, and T = 8.
HEALTH = ("printf 'plan F=4 W=2 N=4\\nflow share=1 cells=1 from=1 to=9\\n"
          "ask 0\\n%s' | ./play --health -")
FAULTS = {
    "refused with 7: the cells add to more than N; here they add to 12, and N "
    "is 11": "./plan 8 2 11  2 6 1 9  2 6 2 9",
    "4: add 2": "./plan 8 2 12  2 2 1 9 | ./plan --check -",
    "to change:": "./plan 8 2 12  2 2 1 9 | ./plan --check -",
    "over: the link from 1 to 9 carries 3 slots of 2, 1 too many: stream 0 "
    "(from 0 to 9) has 2, stream 1 (from 1 to 9) has 1":
        "./plan --mesh 2 0 9 2 1 9 1",
    "!v": "./plan --mesh 2 0 9 2 1 9 1",
    "nothing left at all": LOG % ("sed 's/.*/-/' flights/sparse.sent |",
                                  "booked -"),
    "flow 2: 4 booked, none left: look at its cable": LOG % (
        "sed 's/^2$/-/' flights/sparse.sent |", "booked -"),
    "none left after slot 9: look at its cable": LOG % (
        "sed '10,$s/^2$/-/' flights/sparse.sent |", "booked -"),
    # Flow 1 is a slot late, each time.
    "none in a slot of its own": LOG % (
        "sed '/^1$/{N;s/1\\n-/-\\n1/;}' flights/sparse.sent |", "booked -"),
    "all in flow 2's slots": LOG % ("tr 12 21 <flights/sparse.sent |",
                                    "booked -"),
    "1 never: look at whether its board had the tile by then": LOG % (
        "sed '9s/2/-/' flights/sparse.sent |", "booked -"),
    "SENT is empty": LOG % ("", "booked /dev/null"),
    "1 more than booked": LOG % ("sed '3s/-/0/' flights/sparse.sent |",
                                 "booked -"),
    "nothing was granted to it": WRONG_NODE
    + "./check-log --calls wrong other flights/sparse.sent",
    "refused with 9": WRONG_NODE + "./check-log other flights/sparse.sent",
    "refused with 24": WRONG_NODE + "./check-log other flights/sparse.sent",
    "moved by one slot SENT agrees": LOG % (
        "sed 1d flights/sparse.sent |", "booked -"),
    "SENT ends after slot 30": LOG % (
        "head -n 30 flights/sparse.sent |", "booked -"),
    "had not come up at the end of BOOKED":
        "./play flights/dense >d; ./check-log d flights/sparse.sent",
    "left, 1 slot late": LOG % (
        "sed 's/^0$/x/; 33s/x/-/; 34s/-/0/; s/x/0/' flights/sparse.sent |",
        "--ahead booked -"),
    # Flow 2 asks in slot 8, and is granted slot 9.
    "it may leave from the next one on": LOG % (
        "sed '8s/-/2/; 9s/2/-/' flights/sparse.sent |",
        "--ahead booked -"),
    "refused": WRONG_NODE + "./check-log other flights/sparse.sent",
    "differ": LOG % ("sed 's/^2$/-/' flights/sparse.sent |", "booked -"),
    "7 calls refused with 15 (flow 5), call 1343 first": LATE_CREDIT
    + "./play late >booked; sed -n 's/^T //p' booked >sent; "
    "./check-log --calls late booked sent",
    "fails": LATE_CREDIT + "./play --health late",
    "flow 5: 1 request past its share refused with 12, call 894 in slot 277: a "
    "cell of slot 267 is not given back since slot 268: look at the board that "
    "it leads to": LATE_CREDIT + "./play --health late",
    "flow 1: nothing is granted to it: 3 requests refused, 1 with 9, 2 with "
    "24": WRONG_NODE + "./play --health wrong",
    "flow 0: 1 request within its share refused with 12, call 6 in slot 4: a "
    "cell of slot 1 is not given back since slot 2":
        HEALTH % "tick 4\\nask 0\\ncredit 0 5\\n",
    "a cell of slot 1 was given back in slot 10, more than a window later":
        HEALTH % "tick 10\\ncredit 0 3\\n",
    "flow 0: a cell of slot 1 is not given back since slot 2: look at the "
    "board that it leads to": HEALTH % "tick 10\\n",
}


# ---- the page taken apart

def text_of_boxes():
    """The text of each box, by its heading."""
    parts = re.split(r"^## (.+)$", PAGE.read_text(), flags=re.MULTILINE)
    return dict(zip(parts[1::2], parts[2::2]))


def parts_of(text):
    """What stands behind each bold word at the beginning of a line."""
    found = re.split(r"^- \*\*([^*]+)\*\*", text, flags=re.MULTILINE)
    return dict(zip(found[1::2], found[2::2]))


def rows(width):
    """The cells of the table with so many columns under the last heading."""
    text = PAGE.read_text().split("\n## ")[-1].replace("\\|", "/")
    return [cells for cells in cells_of(text.splitlines())
            if len(cells) == width][2:]


def lines_of_console_log():
    """The first column of the table of lines."""
    text = text_of_boxes()["Console log"]
    table = [cells for cells in cells_of(text.splitlines())
             if len(cells) == 3][2:]
    return [QUOTED.findall(cells[0])[0] for cells in table]


def bad_words():
    """All words that the page calls bad."""
    for name in BOXES:
        part = parts_of(text_of_boxes()[name])["Bad:"]
        yield from (words for words in QUOTED.findall(part)
                    if not words.startswith(("./", "flights/")))
    yield from lines_of_console_log()


# ---- what is tested

def line_by_line(programs):
    """Each box is there, with a square, all its parts and none empty; and the
    table has the same lines."""
    boxes = text_of_boxes()
    if list(boxes)[:-1] != BOXES:
        return "%s" % list(boxes)
    for name in BOXES:
        parts = parts_of(boxes[name])
        if list(parts) != PARTS or "\n- [ ] " not in boxes[name]:
            return "%s: %s" % (name, list(parts))
        if not all(part.strip() for part in parts.values()):
            return "%s: a part is empty" % name
    return [cells[0] for cells in rows(3)] != BOXES and "another table"


def in_a_folder(command):
    """What a command prints, with both outputs, in a folder that has the
    commands and the flights; and its exit status."""
    with tempfile.TemporaryDirectory() as folder:
        for name in TREE:
            os.symlink(ROOT / name, os.path.join(folder, name))
        ended = start(["sh", "-c", command], cwd=folder)
    return ended.output.decode() + ended.errors, ended.status


def good_commands(programs):
    """One after the other, each ends with 0, and what is called good is
    printed."""
    for name in BOXES:
        parts = parts_of(text_of_boxes()[name])
        commands = [words for words in QUOTED.findall(parts["Command:"])
                    if words.startswith(("./", "sed "))]
        said, status = in_a_folder(" && ".join(
            [BEFORE.get(name, ":"), *commands]))
        missing = [words for words in QUOTED.findall(parts["Good:"])
                   if not words.startswith("flights/") and words not in said]
        if status or missing or not commands:
            return "%s: status %d, not printed: %s" % (name, status, missing)
    return None


def bad_is_told(programs):
    """Each fault is made, and told; and each that the page has is made."""
    missing = sorted(set(bad_words()) - set(FAULTS))
    if missing:
        return "never made: %s" % missing
    for words, command in FAULTS.items():
        said, status = in_a_folder(command)
        told = words in said and (status == 1 or words in (
            "4: add 2", "to change:"))
        if not told:
            return "%s: status %d: %s" % (words, status, said[:300])
    return None


def files_are_there(programs):
    for page in (PAGE, ROOT / "flights/README.md"):
        for quoted in QUOTED.findall(page.read_text()):
            for word in quoted.split():
                if (word.startswith(FOLDERS)
                        and not (ROOT / word).exists()):
                    return "there is no " + word
    return None


def options_are_in_the_help(programs):
    pages = {}
    for quoted in QUOTED.findall(PAGE.read_text()):
        words = quoted.split()
        if not words[0].startswith("./"):
            continue
        if words[0] not in pages:
            pages[words[0]] = start([ROOT / words[0], "--help"]).output
        for word in words[1:]:
            if (word.startswith("--") and word != "--help"
                    and word.encode() not in pages[words[0]]):
                return "%s is not in the help of %s" % (word, words[0])
    return len(pages) < 3 and "only %s" % sorted(pages)


def statements_stand_there(programs):
    """Each name is a word of some file of its row."""
    for line, statements, where in rows(3):
        texts = [(ROOT / path).read_text() for path in QUOTED.findall(where)
                 if path.startswith("crates/")]
        for name in QUOTED.findall(statements):
            if re.fullmatch(r"[a-zA-Z-]{2,}", name) and not any(
                    re.search(r"(?<![\w-])%s(?![\w-])" % name, text)
                    for text in texts):
                return "%s: %s stands in none of its files" % (line, name)
    return None


TESTS = (line_by_line, good_commands, bad_is_told, files_are_there,
         options_are_in_the_help, statements_stand_there)


def tests(programs):
    for test in TESTS:
        yield ("checklist: " + test.__name__.replace("_", " "),
               lambda test=test: test(programs))

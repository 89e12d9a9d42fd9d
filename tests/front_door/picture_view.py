"""A page used: keys, buttons, the slider and the address, and what is drawn
then, on a stand-in for a browser's document, where node is on the machine."""

import json
import re
import shutil
import subprocess

import call_bytes
from driver.left_out import leave_out
from edges.edge_maker import BASE, TICK, lend
from front_door.command import LIMIT, ROOT
from front_door.picture_files import LISTING, Played, flight_of
from front_door.picture_pages import Reader, page

STUB = ROOT / "tests/front_door/page_stub.js"


class Broken(Exception):
    """A page that is not made, or whose scripts break off."""



# Rule 13.6's seven calls: call 3 is refused with 12, and no other is.
# A step beside the number that is shown then.
STEPS = [
    (["key", "ArrowRight"], 1), (["key", "ArrowRight"], 2),
    (["key", "ArrowLeft"], 1), (["key", "End"], 7),
    (["key", "ArrowRight"], 7),                     # there is no call 8
    (["key", "p"], 3), (["key", "Home"], 0), (["key", "ArrowLeft"], 0),
    (["key", "n"], 3),
    (["key", "PageDown"], 7), (["key", "PageUp"], 0),
    (["click", "next"], 1), (["click", "last"], 7), (["click", "back"], 6),
    (["click", "previous-refusal"], 3), (["click", "first"], 0),
    (["click", "next-refusal"], 3),
    (["slide", 5], 5), (["slide", 0], 0),
    (["address", "#6"], 6), (["address", "#call=2"], 2),
    (["address", "#slot=1"], 7), (["address", "#slot=0"], 0),
    (["field", "call", "5"], 5), (["field", "slot", " 1 "], 7),
    (["field", "call", "007"], 7), (["field", "slot", "0"], 0),
]
# An address and a number in a field that mean no call: the page stays.  The
# file has calls 0 to 7, and slots 0 and 1 have come up.
BAD_ADDRESSES = ["", "#", "#x", "#99", "#8", "#-1", "#1.5", "#1e0", "#call=",
                 "#call=8", "#call=1x", "#slot=2", "#slot=-1", "#slot=", "#s=1",
                 "#CALL=1", "#slot=1&call=2", "#call=" + 400 * "9",
                 "#__proto__", "#slot=__proto__"]
BAD_FIELDS = [("call", "8"), ("call", ""), ("call", "x"), ("call", "-1"),
              ("call", "1e0"), ("call", 400 * "9"), ("slot", "2"),
              ("slot", "0.5"), ("slot", "length")]
# Keys that are not the page's own, and stay the browser's.
OTHERS = [["key", "x"], ["key", " "], ["keyWithControl", "ArrowRight"],
          ["keyInSelect", "ArrowRight"], ["keyInSelect", "n"],
          ["keyInField", "ArrowRight"], ["keyInField", "Home"],
          ["keyInField", "n"]]

# What is drawn after a call: the call's number, and some of what is seen.
# Flow 0 books 1, 2 and 4 and gives a cell back from 4 on, so that it holds
# both cells in the last slot after calls 2, 3 and 5; flow 1 books 3.
DRAWN = [
    (0, {"owners": [""] * 8, "current": [0], "gone": [], "about": [],
         "own": [], "full": [], "refused": False,
         "frames": ["Head frame 0: positions 0 to 3",
                    "Newest frame 1: positions 4 to 7"],
         "holds": 2 * ["Holds 0 of 2 now, at most 0. Granted so far: 0."]}),
    (2, {"owners": ["", "0", "0", "", "", "", "", ""], "about": [2],
         "own": [0], "full": [0]}),
    (3, {"about": [], "own": [0], "full": [0], "refused": True,
         "answer": "Refused with 12: all of its 2 cells are held.",
         "advice": "What to do: wait for credits or the next frame.",
         "rule": "12 is given where the flow has share left in the newest "
                 "frame, but no position that would be valid, whatever the "
                 "word's departure: its cells are all held, or the slots are "
                 "booked."}),
    (4, {"about": [4], "own": [0], "full": [], "refused": False,
         "advice": "", "rule": ""}),
    (6, {"about": [3], "own": [1], "full": [0], "current": [0]}),
    (7, {"owners": ["", "0", "0", "1", "0", "", "", ""], "current": [1],
         "gone": [0], "about": [], "own": [0], "full": [0],
         "call": "A tick: slot 1, position 1 of frame 0 has come up.",
         "answer": "It is flow 0's.",
         "where": "Current position CP = 1, slot 1. Booked and still to come: "
                  "3 of the window's 8 slots.",
         "holds": ["Holds 1 of 2 now, at most 2: none left to book with. "
                   "Granted so far: 3.",
                   "Holds 0 of 2 now, at most 1. Granted so far: 1."]}),
]

# Refused with 8, 12, 8: flow 7 is none of the plan's, and flow 0's cells are
# held by 1 and 2.
REFUSED = Played(
    BASE + call_bytes.request(9, 7) + call_bytes.request(9, 0)
    + call_bytes.request(9, 0, 1) + call_bytes.request(9, 0, 2)
    + call_bytes.request(9, 7),
    ["P 0", "R 8", "G 1", "G 2", "R 12", "R 8"])
CHOSEN = [(["choose", 8], 0), (["key", "n"], 1), (["key", "n"], 5),
          (["key", "p"], 1), (["choose", 12], 1), (["key", "n"], 4),
          (["choose", 0], 4), (["key", "n"], 5)]

# Slot 0 is lent to flow 1, and slot 1 is nobody's.
LENT = Played(BASE + lend(2) + TICK, ["P 0", "L 1", "T -"], ["--allcalls"])

# None may leave ahead: slot 2 was asked for in slot 0, where it is credited
# after a lend; the credit of slot 1 has no lend before it, and that of slot 5
# is another flow's than was lent to.
PAIRED = Played(
    BASE + call_bytes.request(9, 0) + call_bytes.request(9, 0, 1)
    + call_bytes.request(9, 1) + call_bytes.credit(0, 1) + lend(1)
    + call_bytes.credit(0, 2) + TICK + TICK + TICK + TICK + lend(1)
    + call_bytes.credit(1, 5),
    ["P 0", "G 1", "G 2", "G 3", "C", "L 0", "C", "T 0", "T 0", "T 1", "T -",
     "L 0", "C"], ["--allcalls"])
# Slot 4 is asked for by a burst in slot 0, where it can't leave; it may in
# slot 3.
SENT_AHEAD = Played(
    BASE + call_bytes.request(9, 0) + call_bytes.request(9, 0, 1)
    + call_bytes.credit(0, 1) + call_bytes.credit(0, 2)
    + call_bytes.burst([call_bytes.word(9, 0, 2)]) + lend(1)
    + call_bytes.credit(0, 4) + TICK + TICK + TICK + lend(1)
    + call_bytes.credit(0, 4),
    ["P 0", "G 1", "G 2", "C", "C", "B 0 4", "L 0", "C", "T 0", "T 0", "T -",
     "L 0", "C"], ["--allcalls"])
PAIR = (" With the lend before it the tile of slot 4 may leave ahead, in slot "
        "3, if it came in an earlier one.")

# A burst of a word of flow 1 and two of flow 0; then flow 1's slot comes up.
BURST = Played(
    BASE + call_bytes.burst([call_bytes.word(9, 1), call_bytes.word(9, 0),
                             call_bytes.word(9, 0, 1)]) + TICK,
    ["P 0", "B 0 1", "B 0 2", "B 0 3", "T 1"], ["--allcalls"])

# One of each thing, but for the two frames of the window.
ONE = Played(call_bytes.plan(1, 2, 1, [(1, 1, 1, 9)]) + TICK, ["P 0", "T -"])


def scripts_of(text):
    return re.findall(r"<script>\n(.*?)</script>", text, re.DOTALL)


def used(played, steps, at="", first=0, last=None, **more):
    """What is seen of a file's page at first, and after each step of a user;
    `at` is the end of its address, `first` and `last` are its slots."""
    text, wrong = page(played)
    if wrong:
        raise Broken(wrong)
    asked = {"ids": Reader(text).ids,
             "flight": flight_of(played, first, last), "steps": steps,
             "hash": at, **more}
    done = subprocess.run(
        ["node", "-e", "\n".join([STUB.read_text(), *scripts_of(text),
                                  "lookAtEachStep();"])],
        input=json.dumps(asked).encode(), stdout=subprocess.PIPE,
        stderr=subprocess.PIPE, timeout=LIMIT)
    if done.returncode:
        raise Broken(done.stderr.decode()[:400])
    return json.loads(done.stdout)


def wrong_numbers(played, steps, last):
    """What is wrong where each step has to show its number, of so many; or
    None."""
    seen = used(played, [step for step, _ in steps])[1:]
    for (step, number), found in zip(steps, seen):
        shown = "%d of %d" % (number, last)
        if found["number"] != shown or found["slider"] != number:
            return "%s: %s for %s" % (step, found["number"], shown)
    return None


# ---- which call is shown

def every_control():
    return wrong_numbers(LISTING, STEPS, 7)


def keys_are_kept():
    """Its own keys move the page and nothing else; others move nothing."""
    own = [step for step, _ in STEPS if step[0] == "key"]
    seen = used(LISTING, own)[1:]
    lost = [step for step, found in zip(own, seen) if not found["kept"]]
    moved = [step for step, found in zip(OTHERS, used(LISTING, OTHERS)[1:])
             if found["kept"] or found["number"] != "0 of 7"]
    return (lost or moved) and "lost %s, moved by %s" % (lost, moved)


def address_at_first():
    for at, shown in (("", "0 of 7"), ("#4", "4 of 7"), ("#call=4", "4 of 7"),
                      ("#slot=1", "7 of 7"), ("#-1", "0 of 7"),
                      ("#call=8", "0 of 7")):
        found = used(LISTING, [], at)[0]["number"]
        if found != shown:
            return "%s: %s" % (at, found)
    return None


def address_follows():
    """Each step but the last two ends in its call; a slot that is asked for
    stays one."""
    steps = [["key", "End"], ["click", "back"], ["slide", 2], ["key", "n"],
             ["field", "call", "04"], ["address", "#5"],
             ["field", "slot", "01"], ["address", "#slot=0"]]
    found = [seen["address"] for seen in used(LISTING, steps)]
    return found != ["#call=0", "#call=7", "#call=6", "#call=2", "#call=3",
                     "#call=4", "#call=5", "#slot=1", "#slot=0"] and (
        "%s" % found)


def bad_address_is_ignored():
    """The page stays, without a word, and the address is put right."""
    steps = [["address", at] for at in BAD_ADDRESSES]
    for at, found in zip(BAD_ADDRESSES, used(LISTING, steps, "#3")[1:]):
        if (found["number"], found["address"], found["advice"]) != (
                "3 of 7", "#call=3", "What to do: wait for credits or the "
                "next frame."):
            return "%s: %s, %s" % (at, found["number"], found["address"])
    return None


def address_that_is_not_taken():
    """A browser may take no more addresses in a row: the page goes on."""
    seen = used(LISTING, [["key", "End"]], "", noAddress=True)[1]
    return (seen["number"], seen["address"]) != ("7 of 7", "") and (
        "%s, %s" % (seen["number"], seen["address"]))


def bad_field_is_told():
    """The page stays, and the field has its number again."""
    steps = [["field", *field] for field in BAD_FIELDS]
    for (kind, words), found in zip(
            BAD_FIELDS, used(LISTING, steps, "#4")[1:]):
        says = {"call": "'%s' is no call: the last is call 7.",
                "slot": "'%s' is no slot that has come up: the last is slot "
                        "1."}[kind]
        if (found["number"], found["slot"], found["address"],
                found["advice"]) != ("4 of 7", "0 of 1", "#call=4",
                                     says % words):
            return "%s %s: %s" % (kind, words[:9], found["advice"])
    return None


def slot_that_has_come_up():
    """Of the file's twelve calls 7 to 10 are ticks: slots 1 to 4."""
    steps = [["field", "slot", str(slot)] for slot in range(5)]
    found = [(seen["number"], seen["slot"])
             for seen in used(PAIRED, steps)[1:]]
    calls = (0, 7, 8, 9, 10)
    return found != [("%d of 12" % call, "%d of 4" % slot)
                     for slot, call in enumerate(calls)] and "%s" % found


def refusal_that_is_chosen():
    found = used(REFUSED, [])[0]["sought"]
    return wrong_numbers(REFUSED, CHOSEN, 5) or (
        found != ["any (3)", "8 (2)", "12 (1)"] and "choices %s" % found)


def no_more_refusals():
    """It is said, and the page stays where it is."""
    steps = [["key", "n"], ["key", "n"], ["key", "p"], ["choose", 12],
             ["key", "n"]]
    found = [(seen["number"], seen["advice"])
             for seen in used(LISTING, steps)[2:]]
    expected = [("3 of 7", "There is no later refusal."),
                ("3 of 7", "There is no earlier refusal."),
                ("3 of 7", "There is no earlier refusal."),
                ("3 of 7", "There is no later refusal 12.")]
    return found != expected and "%r" % found


# ---- what is drawn

def wrong_view(found, expected):
    wrong = {name: found[name] for name in expected
             if found[name] != expected[name]}
    return wrong and "%r" % wrong


def after_a_call():
    steps = [["address", "#%d" % number] for number, _ in DRAWN]
    for (number, expected), found in zip(DRAWN, used(LISTING, steps)[1:]):
        wrong = wrong_view(found, expected)
        if wrong:
            return "call %d: %s" % (number, wrong)
    return None


def flows_of_a_call():
    """The thick frame: a flow that is lent to, none for an idle slot, and none
    for a flow that the plan has not."""
    found = [seen["own"] for seen in used(LENT, 2 * [["key", "ArrowRight"]])]
    refused = used(REFUSED, [["key", "ArrowRight"]])[1]["own"]
    return (found != [[], [1], []] or refused) and "%r %r" % (found, refused)


def flows_beside_the_words():
    """The call's flow is in view: with its holdings beside its words, and
    hidden there for every other call."""
    seen = used(LISTING, 7 * [["key", "ArrowRight"]])
    found = [each["beside"] for each in seen]
    if found != [[], [0], [0], [0], [0], [0], [1], [0]]:
        return "%s" % found
    held = [each["besideHolds"] for each in seen if each["beside"] != [
        flow for flow in (0, 1) if each["holds"][flow] in each["besideHolds"]]]
    burst = [(each["beside"], each["several"], each["whose"])
             for each in used(BURST, 2 * [["key", "ArrowRight"]])]
    none = used(REFUSED, [["key", "ArrowRight"]])[1]
    return held and "%s" % held or burst != [
        ([], False, ""), ([0, 1], True, "Flows 1, 0."),
        ([1], False, "Flow 1 holds 1 of 2 now, at most 1. Granted so far: "
         "1.")] and "%s" % burst or (none["beside"] or none["whose"]) and (
        "%s" % none["whose"])


def refusals_of_a_burst():
    """Each word's in the answer, and of the first what to do and when it is
    given."""
    played = Played(BASE + call_bytes.burst(
        [call_bytes.word(9, 7), call_bytes.word(5, 1)]),
        ["P 0", "B 8 0", "B 9 0"], ["--allcalls"])
    return wrong_view(used(played, [["key", "End"]])[1], {
        "call": "A burst of 2 requests.", "refused": True, "beside": [1],
        "answer": "Answers: flow 7 refused with 8; flow 1 refused with 9 (it "
                  "goes to node 9).",
        "advice": "What to do: look at the sender's flow number.",
        "rule": "8 is given where the word's or the credit's flow is not "
                "below n."})


def sentence_once():
    """8 has no reason of its own: its row stands in the answer alone."""
    return wrong_view(used(REFUSED, [["key", "ArrowRight"]])[1], {
        "answer": "Refused with 8: the word's or the credit's flow is not "
                  "below n.", "rule": ""})


def pairs_that_send_ahead():
    """How many there are, and the credit of each says so."""
    for played, said, counted in (
            (PAIRED, [], ""),
            (SENT_AHEAD, ["12 of 12"],
             ", 1 pair of a lend and a credit to leave ahead")):
        seen = used(played, 12 * [["key", "ArrowRight"]])
        found = [each["number"] for each in seen
                 if "ahead" in each["answer"]]
        plan = seen[0]["plan"]
        if found != said or said and PAIR not in seen[-1]["answer"]:
            return "%s: %s" % (found, seen[-1]["answer"])
        if not plan.endswith(", 2 flows, 12 calls%s." % counted):
            return plan
    return None


def page_of_a_stretch():
    """It begins and ends with its own calls, and says which they are: slot 1
    comes up with call 7 of 12, and the last call in slot 3 is call 9.  Before
    call 7 slot 0 is lent to flow 0."""
    steps = [["key", "End"], ["key", "Home"], ["key", "ArrowRight"],
             ["field", "slot", "2"], ["field", "call", "5"],
             ["field", "slot", "4"], ["address", "#call=12"]]
    seen = used(PAIRED, steps, first=1, last=3)
    found = [(each["number"], each["slot"]) for each in seen]
    right = [(call, slot) for call, slot in (
        (6, 0), (9, 3), (6, 0), (7, 1), (8, 2), (8, 2), (8, 2), (8, 2))]
    said = [each["advice"] for each in seen[5:7]]
    return found != [("%d of 9" % call, "%d of 3" % slot)
                     for call, slot in right] and "%s" % found or said != [
        "'5' is no call: the first here is call 6, and the last is call 9.",
        "'4' is no slot that has come up: the first here is slot 0, and the "
        "last is slot 3."] and "%s" % said or wrong_view(seen[0], {
            "call": "The link after call 6.",
            "answer": "With the next call this page begins.",
            "plan": "Frames of F = 4 slots, a window of W = 2 frames, a "
            "buffer of N = 4 cells, 2 flows, calls 7 to 9 of the file, slots "
            "1 to 3.", "owners": ["0", "0", "0", "1", "", "", "", ""]})


def one_of_each():
    return wrong_view(used(ONE, [])[0], {
        "plan": "Frames of F = 1 slot, a window of W = 2 frames, a buffer of "
                "N = 1 cell, 1 flow, 1 call.",
        "frames": ["Head frame 0: position 0", "Newest frame 1: position 1"]})


TESTS = (every_control, keys_are_kept, address_at_first, address_follows,
         bad_address_is_ignored, address_that_is_not_taken, bad_field_is_told,
         slot_that_has_come_up, refusal_that_is_chosen, no_more_refusals,
         after_a_call, flows_of_a_call, flows_beside_the_words,
         refusals_of_a_burst, sentence_once,
         pairs_that_send_ahead, page_of_a_stretch, one_of_each)


def tried(test):
    try:
        return test()
    except Broken as broken:
        return str(broken)


def tests(programs):
    if not shutil.which("node"):
        leave_out("node", "the keys of a page", len(TESTS))
        return
    for test in TESTS:
        yield ("pictures: page used, " + test.__name__.replace("_", " "),
               lambda test=test: tried(test))

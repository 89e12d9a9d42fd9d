"""The faults that docs/CHECKLIST.md is for, made on flights: ./check-log has
to tell each of them."""

import call_bytes
from front_door.check_log import (
    ALIKE, DEAD, DIFFER, MOVED_BY_ONE, SPARSE, LogTree, lines)
from front_door.command import ROOT, trouble
from front_door.tree import named
from simulator.listing import simulate, split_file
from simulator.records import split

DENSE = ROOT / "flights/dense"
# Of the sparse flight, by its story.
WELL = ["flow 0: 5 booked, all left in their slots",
        "flow 1: 3 booked, all left in their slots",
        "flow 2: 4 booked, all left in their slots"]
TITLE_SLOTS = (7, 9, 16, 24)        # flow 2
REFUSED = ("1 call refused with 12 (flow 2), call 17: wait for credits or the "
           "next frame")
FROM_1 = ("with each number one less SENT agrees: does it number the flows "
          "from 1 on? flow 0 is the plan's first")
DIFFERING = "differ: %d of 40 slots agree; BOOKED has 40 and SENT has 40"


def sparse_sent():
    return (ROOT / "flights/sparse.sent").read_text().split()


def place(slot):
    """A slot of the sparse flight: F is 8."""
    return "slot %d (frame %d, its slot %d)" % (slot, slot // 8, slot % 8)


def records(data):
    """The plan's bytes, and the records."""
    plan, rest = split_file(data)
    return plan, list(split(rest))


class FaultTree(LogTree):
    def sent(self, data, streams, *words):
        """On the listing of a file of calls, with the file, and on a list of
        streams."""
        return self.start(
            *words, "--calls", self.write("calls", data),
            self.write("booked", self.listing_of(data)), "-",
            input="".join("%s\n" % flow for flow in streams).encode())

    def sparse(self, streams):
        return self.sent(SPARSE.read_bytes(), streams)


def flow_of(record):
    """Of a request."""
    return int.from_bytes(record[1:], "little") >> 20 & 63


# ---- what left

def dead_flow(tree):
    """The title's cable is off."""
    sent = ["-" if flow == "2" else flow for flow in sparse_sent()]
    return trouble(tree.sparse(sent), DIFFER, lines(
        [DIFFERING % 36, *WELL[:2],
         "flow 2: 4 booked, none left: look at its cable"]
        + [place(slot) + ": it was booked for flow 2, and nothing left"
           for slot in TITLE_SLOTS] + [REFUSED]))


def dead_link(tree):
    """Nothing leaves: no flow's cable is named."""
    ended = tree.sparse(["-"] * 40)
    said = ended.output.decode().splitlines()
    wanted = [DIFFERING % 28, DEAD, "flow 0: 5 booked, none left",
              "flow 1: 3 booked, none left", "flow 2: 4 booked, none left"]
    return trouble(ended, DIFFER) or (
        (said[:5] != wanted or len(said) != 5 + 12 + 1) and said)


def cable_comes_off(tree):
    """After slot 9 the title no longer leaves."""
    sent = ["-" if flow == "2" and slot > 9 else flow
            for slot, flow in enumerate(sparse_sent(), 1)]
    said = tree.sparse(sent).output.decode().splitlines()
    return said[3] != ("flow 2: 4 booked, 2 left in their slots, 2 never: "
                       "none left after slot 9: look at its cable") and said


def cables_change_places(tree):
    """The planet leaves where the title should, and the other way round."""
    other = {"1": "2", "2": "1"}
    ended = tree.sparse([other.get(flow, flow) for flow in sparse_sent()])
    said = ended.output.decode().splitlines()
    end = "slots: look at which stream has which number"
    return trouble(ended, DIFFER) or said[1:4] != [
        WELL[0],
        "flow 1: 3 booked, 4 left elsewhere: all in flow 2's " + end,
        "flow 2: 4 booked, 3 left elsewhere, 1 never: all in flow 1's " + end
    ] and said


def cables_change_places_ahead(tree):
    """The same with --ahead: each is told by the other's slots.  Of a flow
    that leaves once in another's it is told by the other."""
    end = "look at which stream has which number"
    for booked, sent, right in (
            ("0 0 1 0 0 1 -", "1 1 0 1 1 0 -", [
                "flow 0: 4 booked, 2 left wrongly, 2 never: all in flow 1's "
                "slots: " + end,
                "flow 1: 2 booked, 4 left wrongly: all in flow 0's slots: "
                + end]),
            ("0 0 1 -", "1 1 0 -", [
                "flow 0: 2 booked, 1 left wrongly, 1 never: flow 1 leaves in "
                "its slots: " + end,
                "flow 1: 1 booked, 2 left wrongly: all in flow 0's slots: "
                + end])):
        ended = tree.compare(booked, sent, "--ahead")
        said = ended.output.decode().splitlines()
        wrong = trouble(ended, DIFFER) or said[1:3] != right and said
        if wrong:
            return wrong
    return None


def one_booking_never_sent(tree):
    """The title's second slot stays empty: its board is named."""
    sent = sparse_sent()
    sent[TITLE_SLOTS[1] - 1] = "-"
    said = tree.sparse(sent).output.decode().splitlines()
    return said[3] != ("flow 2: 4 booked, 3 left in their slots, 1 never: "
                       "look at whether its board had the tile by then"
                       ) and said


def empty_list(tree):
    """It differs, and a line says why."""
    for words in ([], ["--ahead"]):
        ended = tree.sent(SPARSE.read_bytes(), [], *words)
        said = ended.output.decode().splitlines()
        wrong = trouble(ended, DIFFER) or said[1] != (
            "SENT is empty: of 40 slots, 12 booked, none can be compared: "
            "look at whether the list was written") and said
        if wrong:
            return "%s: %s" % (words, wrong)
    return None


def numbers_from_one(tree):
    """The log counts its streams from 1 on: that is said, and no flow is
    blamed for it."""
    sent = [flow if flow == "-" else int(flow) + 1 for flow in sparse_sent()]
    ended = tree.sparse(sent)
    said = ended.output.decode().splitlines()
    ahead = tree.sent(SPARSE.read_bytes(), sent, "--ahead")
    return trouble(ended, DIFFER) or said[1:6] != [
        FROM_1, "flow 0: 5 booked, none left",
        "flow 1: 3 booked, 5 left elsewhere",
        "flow 2: 4 booked, 3 left elsewhere, 1 never",
        "flow 3: none booked, 4 left elsewhere"] and said or (
        FROM_1 not in ahead.output.decode().splitlines()
        and ahead.output.decode())


def numbers_that_are_not_from_one(tree):
    """Two streams are too few to tell, one that is otherwise is enough, and so
    is an idle slot in which something left."""
    for booked, sent in (("0 1", "1 2"), ("0 1 2 3", "1 2 3 3"),
                         ("0 1 2 -", "1 2 3 4"), ("0 1 2 3", "1 2 3 -")):
        said = tree.compare(booked, sent).output.decode()
        if FROM_1 in said:
            return "%s, %s: %s" % (booked, sent, said)
    return None


def log_begins_late(tree):
    """Its first line is slot 2; also with --ahead, where most tiles would
    seem to be a slot ahead."""
    for words in ([], ["--ahead"]):
        ended = tree.sent(SPARSE.read_bytes(), sparse_sent()[1:], *words)
        said = ended.output.decode().splitlines()
        if ended.status != DIFFER or MOVED_BY_ONE % 2 not in said:
            return "%s: %s" % (words, said)
    return None


def log_breaks_off(tree):
    """After slot 30: one booked slot, 33, is left."""
    return trouble(tree.sparse(sparse_sent()[:30]), DIFFER, lines([
        "differ: 30 of 40 slots agree; BOOKED has 40 and SENT has 30",
        "SENT ends after slot 30 and BOOKED after slot 40: 10 slots, 1 "
        "booked, can't be compared",
        "flow 0: 4 booked, all left in their slots", *WELL[1:], REFUSED]))


# ---- what was asked for

def wrong_destination(tree):
    """Flow 1's first ask is to node 8: its tiles are numbered on from there,
    and it has no cell to give back.  What left is what was booked."""
    plan, calls = records(SPARSE.read_bytes())
    assert calls[1] == call_bytes.request(9, 1)
    calls[1] = call_bytes.request(8, 1)
    sent = ["-" if flow == "1" else flow for flow in sparse_sent()]
    ended = tree.sent(plan + b"".join(calls), sent)
    return trouble(ended, DIFFER, lines([
        "refused: 6 wrong calls in BOOKED; 40 of 40 slots agree, 9 with a "
        "stream and 31 idle", WELL[0],
        "flow 1: nothing was granted to it, 1 with 9, 3 with 15, 2 with 24 "
        "refused", WELL[2],
        "1 call refused with 9 (flow 1), call 2: the word's destination is "
        "not the flow's; look at the sender's routing", REFUSED,
        "3 calls refused with 15 (flow 1), call 7 first: the flow holds "
        "nothing at the credit's position, or at some later one; send one "
        "credit for each cell that falls free, and none twice",
        "2 calls refused with 24 (flow 1), call 28 first: the word's quantum "
        "number is not the one that is expected of its flow; go on by one "
        "after a grant, and send the same number again after a refusal"]))


def bookings_never_sent(tree):
    """Of 787 slots of the dense flight 699 come up before it ends."""
    data = DENSE.read_bytes()
    sent = [line[2:] for line in simulate(data) if line.startswith("T")]
    ended = tree.sent(data, sent)
    said = ended.output.decode().splitlines()
    return trouble(ended, ALIKE) or (
        said[0] != "alike: 879 of 879 slots agree, 699 with a stream and 180 "
        "idle" or not said[-1].startswith(
            "88 granted slots had not come up at the end of BOOKED (flow 0: "
        )) and said


def one_late_return(tree):
    """A credit of flow 5 comes sixty calls later: it is granted 8 slots for
    18.  Its words go on with other numbers, and credits for the rest find no
    cell; how many, by the second simulator."""
    plan, calls = records(DENSE.read_bytes())
    late = calls.pop(858)
    assert late == call_bytes.credit(5, 40)
    calls.insert(858 + 60, late)
    data = plan + b"".join(calls)
    listing = simulate(data)
    own = [line for call, line in zip(calls, listing[1:])
           if call[0] == 2 and call[1] == 5
           or call[0] == 1 and flow_of(call) == 5]
    ended = tree.sent(data, [line[2:] for line in listing
                             if line.startswith("T")])
    said = ended.output.decode()
    missing = [number for number in (15, 24) if "%d calls refused with %d "
               "(flow 5)" % (own.count("R %d" % number), number) not in said]
    return trouble(ended, DIFFER) or missing and "not told: %s" % missing or (
        sum(line.startswith("G") for line in own) != 8 and "other grants")


TESTS = (
    dead_flow, dead_link, cable_comes_off, cables_change_places,
    cables_change_places_ahead, one_booking_never_sent, empty_list,
    numbers_from_one, numbers_that_are_not_from_one, log_begins_late,
    log_breaks_off, wrong_destination, bookings_never_sent, one_late_return,
)


def tests(programs):
    for name, test in named(FaultTree, TESTS, programs):
        yield name.replace("log:", "log, faults:"), test

"""Why a call is refused: what holds here, in words and on the page.  The
listings are worked out by hand, and the second simulator gives the same
(`Played` asks for it)."""

import call_bytes
from call_bytes import TICK, credit, plan, request, word
from edges.edge_maker import BASE
from front_door.picture_files import Played
from front_door.show_tools import explained, followed, page


class Reason:
    """A file, the sentences for the answers of its last call, each "" where
    there is no more to say, and what is played."""

    def __init__(self, name, data, lines, sentences, options=()):
        self.name = name
        self.last = len(lines) - len(sentences)     # the last call
        self.played = Played(data, lines, options)
        self.sentences = sentences

    @property
    def all_calls(self):
        return bool(self.played.options)


ONE_FLOW = plan(4, 2, 8, [(1, 4, 1, 9)])        # share 1, 4 cells
CASES = [
    Reason("destination", BASE + request(5, 0), ["P 0", "R 9"],
           ["it goes to node 9"]),
    Reason("flow that the plan has not", BASE + request(9, 7), ["P 0", "R 8"],
           [""]),
    # Slots 1 and 4: the share of frame 1, the newest, is booked.
    Reason("share", ONE_FLOW + request(9, 0) + request(9, 0, 1)
           + request(9, 0, 2), ["P 0", "G 1", "G 4", "R 11"],
           ["its share is 1 slot to a frame"]),
    Reason("cells", BASE + request(9, 0) + request(9, 0, 1)
           + request(9, 0, 2), ["P 0", "G 1", "G 2", "R 12"],
           ["all of its 2 cells are held"]),
    Reason("only cell", plan(4, 2, 8, [(2, 1, 1, 9)]) + request(9, 0)
           + request(9, 0, 1), ["P 0", "G 1", "R 12"],
           ["its only cell is held"]),
    # F = 2.  Flow 0 has slot 1, and its cell falls free from slot 3 on, which
    # flow 1 has: slot 2 is free, but there flow 0 holds its only cell.
    Reason("slots", plan(2, 2, 2, [(1, 1, 1, 9), (1, 1, 2, 9)])
           + request(9, 0) + credit(0, 3) + request(9, 1, 0, 2)
           + request(9, 0, 1), ["P 0", "G 1", "C", "G 3", "R 12"],
           ["the slots that its cells would allow are booked"]),
    Reason("number", BASE + request(9, 0) + TICK + request(9, 0, 5, 1),
           ["P 0", "G 1", "T 0", "R 24"], ["1 is expected"]),
    Reason("credit", BASE + credit(0, 1), ["P 0", "R 15"], [""]),
    Reason("grant", BASE + request(9, 0), ["P 0", "G 1"], [""]),
    Reason("burst", BASE + call_bytes.burst(
        [word(9, 0), word(9, 0, 1), word(9, 0, 2), word(5, 1), word(9, 1, 3)]),
        ["P 0", "B 0 1", "B 0 2", "B 12 0", "B 9 0", "B 24 0"],
        ["", "", "all of its 2 cells are held", "it goes to node 9", ""],
        ["--allcalls"]),
]


def in_words():
    """./play --explain has each sentence once, and no other."""
    for case in CASES:
        said = explained(case.played.data, case.all_calls)
        found = " ".join(said.split())
        missing = [sentence for sentence in filter(None, case.sentences)
                   if "(here %s)" % sentence not in found]
        if missing or found.count("(here ") != len(
                [*filter(None, case.sentences)]):
            return "%s: %s" % (case.name, said)
    return None


def on_the_page():
    """The page carries the same sentences, of the last call alone."""
    for case in CASES:
        found = followed(page.Flight, case.played.data,
                         case.all_calls).facts("calls")["reasons"]
        meant = {case.last: case.sentences} if any(case.sentences) else {}
        if found != meant:
            return "%s: %s" % (case.name, found)
    return None


TESTS = (in_words, on_the_page)


def tests(programs):
    for test in TESTS:
        yield "pictures: reasons, " + test.__name__.replace("_", " "), test

"""The C player with --ahead: its listing and its list of what left are those
of the second simulator's board."""

import os
import tempfile
from functools import partial
from pathlib import Path

from edges import ahead
from edges.all_edges import ALLCALLS_EDGES, EDGES
from edges.edge_maker import TICK
from front_door.command import ROOT, redirected, start, trouble
from generator.seeds import ANY, BURSTS, DEPARTURES, LENDS, RESETS
from simulator.ahead import play_ahead

NOT_WHOLE, WRONG_WORDS = 1, 2
SEEDS = 12                      # generated files of each sort
FLIGHTS = ("listing", "sparse", "dense")


def as_bytes(lines):
    return "".join("%s\n" % line for line in lines).encode()


def differs(player, data):
    """What is wrong with the player on a file, or None."""
    lines, board = play_ahead(data)
    left = [] if board is None else board.left
    with tempfile.TemporaryDirectory() as folder:
        path = Path(folder) / "sent"
        ended = start([*player, "--ahead", path], input=data)
        sent = path.read_bytes()
    right = as_bytes("-" if flow is None else flow for flow in left)
    return trouble(ended, output=as_bytes(lines)) or (
        sent != right and "it lists %r, and not %r" % (
            sent[:80], right[:80])) or None


def on_files(player, named):
    for name, data in named:
        wrong = differs([player], data)
        if wrong:
            return "%s: %s" % (name, wrong)
    return None


def edges(player):
    return on_files(player, ((edge.name, edge.data)
                             for edge in EDGES + ALLCALLS_EDGES))


def generated_files(player):
    return on_files(player, (
        ("%s %d" % (sort.name, seed), sort.generate(seed))
        for sort in (ANY, DEPARTURES, LENDS, RESETS, BURSTS)
        for seed in range(1, SEEDS + 1)))


def flight(name):
    return (ROOT / "flights" / name).read_bytes()


def flights(player):
    return on_files(player, ((name, flight(name)) for name in FLIGHTS))


def same_bookings(player):
    """On the flights, line by line, with --ahead alone too."""
    for name in FLIGHTS:
        plain = start([player], input=flight(name)).output
        wrong = trouble(start([player, "--ahead"], input=flight(name)),
                        output=plain)
        if wrong:
            return "%s: %s" % (name, wrong)
    return None


def bookings_move_without_order(player):
    """Where a premise breaks: the flow has slots 1 and 5 and one cell, which
    is free from slot 2 on.  Slot 5 is sent in slot 2; then it is full up to
    slot 4, and asked in slot 3 it is granted slot 6 for slot 4."""
    data = ahead.NOT_IN_ORDER.first.data
    data = data[:-5] + TICK + data[-5:]
    lines = ["P 0", "G 1", "C", "G 5", "C", "T 0", "T -", "T -"]
    return trouble(start([player], input=data),
                   output=as_bytes(lines + ["G 4"])) or trouble(
        start([player, "--ahead"], input=data),
        output=as_bytes(lines + ["G 6"]))


def checked(player):
    """./check-log --ahead takes what it writes, and the dense flight gains."""
    for name in ("sparse", "dense"):
        with tempfile.TemporaryDirectory() as folder:
            sent, booked = Path(folder) / "sent", Path(folder) / "booked"
            booked.write_bytes(start([player, "--ahead", sent],
                                     input=flight(name)).output)
            ended = start([ROOT / "check-log", "--ahead", booked, sent])
        wrong = trouble(ended) or (
            name == "dense"
            and b"; 0 slots gained\n" in ended.output.split(b"flow")[0]
            and "nothing is gained")
        if wrong:
            return "%s: %s" % (name, wrong)
    return None


# ---- how it ends

def wrong_words(player):
    for words in (["--behind"], ["--ahead", "a", "b"], ["a", "--ahead"]):
        wrong = trouble(start([player, *words]), WRONG_WORDS, b"",
                        "there are no arguments but --ahead")
        if wrong:
            return "%s: %s" % (words, wrong)
    return trouble(start([player, "--ahead", os.sep]), WRONG_WORDS, b"",
                   "'/' can't be written")


def refused_plan(player):
    return differs([player], b"") or differs([player], b"\x0c\0" + b"\0" * 10)


def full_disk(player):
    """Which of the two is not whole is said."""
    if not os.path.exists("/dev/full"):
        return None
    listing = "the listing is not whole: input or output failed"
    left = "'/dev/full', the list of what left, is not whole: it took no more"
    return trouble(start([player, "--ahead", "/dev/full"],
                         input=flight("sparse")), NOT_WHOLE,
                   start([player], input=flight("sparse")).output,
                   left) or trouble(
        start(redirected(">/dev/full", player, "--ahead"),
              input=flight("sparse")), NOT_WHOLE, b"", listing) or trouble(
        start(redirected(">/dev/full", player, "--ahead", "/dev/full"),
              input=flight("sparse")), NOT_WHOLE, b"", listing, left)


TESTS = (edges, generated_files, flights, same_bookings,
         bookings_move_without_order, checked, wrong_words, refused_plan,
         full_disk)


def tests(player):
    for test in TESTS:
        yield ("C: the player --ahead, " + test.__name__.replace("_", " "),
               partial(test, player))

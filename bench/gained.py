"""How many slots sending ahead gains on the flights.  The calls of each, with
a lend and a credit at the end of each slot in which the second simulator's
board sends a tile ahead, are played by the proved allcalls; its other lines
have to be those of domelink without any.  What left is measured as
./check-log --ahead does."""

import subprocess
import sys
from itertools import zip_longest

import call_bytes
import programs
from simulator.ahead import play_ahead
from simulator.listing import split_file
from simulator.records import split

sys.path.insert(0, str(programs.ROOT / "tools"))
from check.ahead import Sending             # noqa: E402
from check.ends import ENDED                # noqa: E402

FLIGHTS = ("sparse", "dense")


def played(program, data):
    """The lines of a proved program."""
    done = subprocess.run([programs.proved(program)], input=data,
                          capture_output=True, check=True)
    return done.stdout.decode().splitlines()


def with_pairs(data, pairs):
    """Each record, with the two of a pair before the tick that ends its slot;
    and whether it is one of a pair."""
    by_slot = {slot: pair for slot, *pair in pairs}
    slot = 0
    for record in split(split_file(data)[1]):
        if record == call_bytes.TICK:
            if slot in by_slot:
                mask, flow, position = by_slot[slot]
                yield call_bytes.lend(mask), True
                yield call_bytes.credit(flow, position), True
            slot += 1
        yield record, False


def same_bookings(data, booked, board):
    """Whether allcalls takes each pair, and answers the rest as domelink."""
    records = list(with_pairs(data, board.pairs))
    lines = played("allcalls", split_file(data)[0] + b"".join(
        record for record, _ in records))
    rest = [line for line, (_, pair) in zip(lines[1:], records) if not pair]
    pairs = [line for line, (_, pair) in zip(lines[1:], records) if pair]
    taken = [line for _, _, flow, _ in board.pairs
             for line in ("L %d" % flow, "C")]
    return lines[:1] + rest == booked and pairs == taken


def measured(booked, sent):
    """The lines on what is gained; or it ends, where some tile is late."""
    sending = Sending()
    pairs = zip_longest(sending.reads(booked), sent, fillvalue=ENDED)
    for slot, (owner, flow) in enumerate(pairs, 1):
        sending.add(slot, owner, flow)
    sending.end()
    if not sending.good():
        programs.stop("what left is not in time: " + sending.bad_words())
    return ["ahead: " + sending.good_words()] + [
        line for _, line in sending.flow_lines(False)]


def of_flight(name):
    """The lines that tell of a flight."""
    data = (programs.ROOT / "flights" / name).read_bytes()
    booked = played("domelink", data)
    _, board = play_ahead(data)
    if not same_bookings(data, booked, board):
        programs.stop("flights/%s: bookings move where tiles are sent ahead"
                      % name)
    slots = [None if line == "T -" else int(line[2:])
             for line in booked if line.startswith("T ")]
    lines = measured(slots, board.left)
    return ["flights/%s" % name] + ["  " + line for line in lines]


def show():
    for name in FLIGHTS:
        print("\n".join(of_flight(name)), flush=True)

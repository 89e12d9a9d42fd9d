"""The flights that are kept: each is what its recipe makes, and the sparse
one is answered as its recipe says, call by call."""

import re

import call_bytes
from front_door.command import ROOT, start
from generator.seeds import ANY
from simulator.listing import simulate

FLIGHTS = ROOT / "flights"
DENSE_SEED = 391
ANSWER = re.compile(r"(?:[GR] \d+|C|T (?:-|\d+))(?=  |$)")
NAMED = re.compile(r"(\w+)=(\d+)")


# ---- a reader of the sparse flight's recipe, for this file alone

def recipe_lines():
    """The words of each line, and what stands after its #."""
    for line in (FLIGHTS / "sparse.txt").read_text().splitlines():
        words, _, rest = line.partition("#")
        if words.strip():
            yield words.split(), rest.strip()


def sparse_recipe():
    """The call file's bytes, and its listing by hand."""
    sizes, entries, records, lines = None, [], [], ["P 0"]
    ticks = 0
    for (kind, *rest), told in recipe_lines():
        named = {name: int(number)
                 for name, number in NAMED.findall(" ".join(rest))}
        if kind == "plan":
            sizes = named["F"], named["W"], named["N"]
            continue
        if kind == "flow":
            entries.append(tuple(
                named[name] for name in ("share", "cells", "from", "to")))
            continue
        if kind == "ask":
            flow = int(rest[0])
            records.append(call_bytes.request(
                entries[flow][3], flow, named["number"],
                named.get("departure", ticks % (sizes[0] * sizes[1]))))
        elif kind == "credit":
            records.append(call_bytes.credit(int(rest[0]), int(rest[1])))
        elif kind == "tick":
            records.append(call_bytes.TICK)
            ticks += 1
        else:
            raise ValueError("no call: " + kind)
        lines.append(ANSWER.match(told).group())
    return call_bytes.plan(*sizes, entries) + b"".join(records), lines


# ---- tests

def other_line(given, lines):
    """What is wrong with a listing, or None."""
    for number, (line, meant) in enumerate(zip(given, lines), 1):
        if line != meant:
            return "line %d is %s for %s" % (number, line, meant)
    return len(given) != len(lines) and "%d lines" % len(given)


def dense_is_its_seed(programs):
    return ((FLIGHTS / "dense").read_bytes() != ANY.generate(DENSE_SEED)
            and "seed %d makes another file" % DENSE_SEED)


def sparse_is_its_recipe(programs):
    return ((FLIGHTS / "sparse").read_bytes() != sparse_recipe()[0]
            and "the recipe makes another file")


def sparse_by_domelink(programs):
    data, lines = sparse_recipe()
    ended = start([programs["domelink"]], input=data)
    return other_line(ended.output.decode().splitlines(), lines)


def sparse_by_the_simulator(programs):
    data, lines = sparse_recipe()
    return other_line(list(simulate(data)), lines)


def every_tile_of_the_sparse_flight_leaves(programs):
    """Twelve tiles: each number is granted once, in its flow's order, and
    one is refused first.  Of 40 slots, 12 come up for a stream."""
    _, lines = sparse_recipe()
    calls = [words for words, _ in recipe_lines()
             if words[0] not in ("plan", "flow")]
    granted = {flow: [] for flow in "012"}
    for words, line in zip(calls, lines[1:]):
        if line.startswith("G"):
            granted[words[1]].append(words[2])
    came = [line[2:] for line in lines if line.startswith("T")]
    meant = {flow: ["number=%d" % number for number in range(count)]
             for flow, count in zip("012", (5, 3, 4))}
    refused = [line for line in lines if line.startswith("R")]
    return ((granted, refused, len(came), len(came) - came.count("-"))
            != (meant, ["R 12"], 40, 12)) and "%s" % granted


def sparse_list_of_streams(programs):
    """What the T lines of the recipe say."""
    _, lines = sparse_recipe()
    meant = "".join(line[2:] + "\n" for line in lines if line[0] == "T")
    return ((FLIGHTS / "sparse.sent").read_text() != meant
            and "the recipe has other slots")


TESTS = (dense_is_its_seed, sparse_is_its_recipe, sparse_by_domelink,
         sparse_by_the_simulator, every_tile_of_the_sparse_flight_leaves,
         sparse_list_of_streams)


def tests(programs):
    for test in TESTS:
        yield ("flights: " + test.__name__.replace("_", " "),
               lambda test=test: test(programs))

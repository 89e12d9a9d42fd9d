"""./play in words and as pictures on a long file: what it keeps in memory,
and how many calls it takes in a second of the processor."""

import itertools
import sys

import call_bytes
from front_door.command import start
from front_door.play_tree import in_traced_trees

CALLS = 60_000              # of the long file, 20,000 slots
MORE_BYTES = 4_000_000      # that it may take more than a short one
SLOWEST = 20_000            # calls a second of the processor
PLAN = call_bytes.plan(64, 4, 192, [(4, 12, flow, 40 + flow)
                                    for flow in range(16)])
MEASURE = """\
import resource, subprocess, sys
status = subprocess.call(sys.argv[1:], stdout=subprocess.DEVNULL)
used = resource.getrusage(resource.RUSAGE_CHILDREN)
print(1024 * used.ru_maxrss, used.ru_utime + used.ru_stime, status)
"""
# Words in front, and those for the long file alone, which is drawn near its
# end.
WAYS = ((["--explain"], []), (["--summary"], []), (["--health"], []),
        (["--window"], []), (["--timeline", "/dev/null"], ["--from", "19900"]),
        (["--page", "/dev/null"], ["--from", "19900"]))


def frame_calls(frame):
    """The calls in a frame of 64 slots: each of 16 flows asks for four tiles
    at its beginning, and a cell of it is given back in four slots of the
    next."""
    first = 64 * frame
    for tile in range(4):
        number = (4 * frame + tile) % 1024
        for flow in range(16):
            yield call_bytes.request(40 + flow, flow, number, first % 256)
    for slot in range(first + 1, first + 65):
        yield call_bytes.TICK
        if slot > 64:
            yield call_bytes.credit(slot % 16, (slot + 1) % 256)


def dense_calls(count):
    """A file of so many calls, frame by frame."""
    calls = itertools.chain.from_iterable(map(frame_calls, itertools.count()))
    return PLAN + b"".join(itertools.islice(calls, count))


def measured(tree, words):
    """The most bytes, the processor's seconds and the exit status."""
    most, seconds, status = start([
        sys.executable, "-S", "-c", MEASURE, tree.command, *words]
    ).output.split()
    return int(most), float(seconds), int(status)


def memory_and_pace(tree):
    """All of them pass it on as it comes."""
    short = tree.write("short", dense_calls(200))
    long = tree.write("long", dense_calls(CALLS))
    for way, near in WAYS:
        few, begins, status = measured(tree, [*way, short])
        many, takes, status_of_long = measured(tree, [*way, *near, long])
        if status or status_of_long:
            return "%s: status %d, %d" % (way, status, status_of_long)
        if many - few > MORE_BYTES:
            return "%s: %d bytes more" % (way, many - few)
        if CALLS / (takes - begins) < SLOWEST:
            return "%s: %.1f s" % (way, takes - begins)
    return None


def every_call_is_granted(tree):
    """What the long file is: no call of it is refused."""
    said = start([tree.command, "--summary", "-"],
                 input=dense_calls(20000)).output.decode()
    return " refused (" in said and said


def tests(programs):
    for name, test in in_traced_trees((memory_and_pace,
                                       every_call_is_granted)):
        yield name.replace("play:", "play, long:"), test

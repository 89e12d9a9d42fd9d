"""Tests done side by side, by a process for each processor, and how long
each sort of them takes."""

import multiprocessing
import os
import time
from collections import Counter

from driver.progress import counted

jobs = []                       # those of the processes that are started next
spent = Counter()               # seconds, by the sort of tests


def do(place):
    return jobs[place]()


def done(sort, pairs):
    """The pairs of a name and a job, in their order, with what came of the
    job in its place.  A job is done in a process of its own.  The sort of
    tests is for the line that counts them."""
    begun = time.monotonic()
    pairs = list(pairs)
    jobs[:] = [job for _, job in pairs]
    with multiprocessing.get_context("fork").Pool(os.cpu_count()) as pool:
        results = pool.imap(do, range(len(pairs)))
        yield from counted(
            sort, zip((name for name, _ in pairs), results), len(pairs))
    spent[sort] += time.monotonic() - begun


def seconds_text(total):
    """How long it took in all, and each sort that took a second or more."""
    parts = ["%s %.1f" % part for part in spent.most_common() if part[1] >= 1]
    return "%.1f seconds%s" % (total, ": " * bool(parts) + ", ".join(parts))

"""bench/run --ahead: the slots that sending ahead gains on two flights."""

import os
import re
import shutil
import sys
import tempfile

from front_door.command import ROOT, start, trouble

FLIGHT = re.compile(
    rb"^flights/(\w+)\n  ahead: (\d+) tiles left at or before their slots, "
    rb"(\d+) ahead; (\d+) slots gained\n", re.M)


def gained():
    """With an rt that has nothing to do.  12 tiles of the sparse flight have
    slots, as docs/CHECKLIST.md says; the dense one gains some."""
    with tempfile.TemporaryDirectory() as folder:
        os.symlink(shutil.which("true"), os.path.join(folder, "rt"))
        path = folder + os.pathsep + os.environ.get("PATH", os.defpath)
        ended = start([sys.executable, ROOT / "bench/run", "--ahead"],
                      env=dict(os.environ, PATH=path))
    found = [(name, *map(int, counts))
             for name, *counts in FLIGHT.findall(ended.output)]
    wrong = ([name for name, *_ in found] != [b"sparse", b"dense"]
             or found[0][1] != 12
             or found[1][2] < 1
             or any(gained < ahead for _, _, ahead, gained in found))
    return trouble(ended) or wrong and "it prints %r" % ended.output[:400]


def tests(programs):
    yield "bench/run --ahead: slots gained", gained

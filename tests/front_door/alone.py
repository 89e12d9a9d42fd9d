"""Slips that share a must-fail edit, each tried alone: in a copy of the crates
it has an edit of its own, and `rt ci` says what came of that.

rt tells of an edit whether it is refused and its first error, so that of
several slips in one it can't be told which were.  A slip that is alone is
refused for itself: nothing else is wrong with its crate.  Not so where only a
name is gone that a file of proofs has, and rt says that.  The first error of a
slip in a function is in that function's proof, or at its source where it has
no file of proofs; that of a slip in a definition may stand before the file
that its line `told: FILE` names."""

import re
import shutil
import subprocess
import tempfile
from pathlib import Path

from driver import progress
from front_door.command import ROOT
from front_door.gathering import written
from front_door.slips import place_of

LOG = ROOT / "target/slips.log"
SAID = re.compile(r"^rt: must-fail (\w+)/([\w.-]+)\.edit: (.*)$", re.MULTILINE)
REFUSED = "refused, as it must be"
ONLY_A_NAME = "(only because a proof file names what the edit took away"


def lay_out(folder, found):
    """The crates and what rt reads beside them, with an edit for each slip and
    no other."""
    shutil.copytree(ROOT / "crates", folder / "crates",
                    ignore=shutil.ignore_patterns("out", "must-fail"))
    for name in ("crates.txt", "HANDLES"):
        if (ROOT / name).exists():
            shutil.copy(ROOT / name, folder / name)
    (folder / ".git").mkdir()           # it is the top of a repository
    for slip in found:
        path = folder / "crates" / slip.crate / "must-fail" / (
            slip.name + ".edit")
        path.parent.mkdir(exist_ok=True)
        path.write_text(written([slip]))


def tried(found, crates):
    """What rt says of each slip, by its crate and its name."""
    with tempfile.TemporaryDirectory() as folder:
        lay_out(Path(folder), found)
        done = progress.run("rt ci, %d slips" % len(found),
                            ["rt", "ci", *crates], cwd=folder,
                            stdin=subprocess.DEVNULL, stdout=subprocess.PIPE,
                            stderr=subprocess.STDOUT)
    LOG.parent.mkdir(exist_ok=True)
    LOG.write_text(done.stdout, encoding="utf-8")
    return said_in(done.stdout)


def said_in(log):
    return {(crate, name): text for crate, name, text in SAID.findall(log)}


def is_elsewhere(slip, text):
    """Whether the first error that is told is not in the proof of the slip's
    function; a folder of a recursion has a plus before its name."""
    if slip.told or "error" not in text and "note: " not in text:
        return False
    here = ("./" + place_of(slip), "note: %s:" % slip.steps[0][0])
    return not any(place in text.replace("/+", "/") for place in here)


def trouble(slip, said):
    """Why a slip is not known to be refused for itself, or None."""
    text = said.get((slip.crate, slip.name))
    if text is None:
        return "it was not tried; target/slips.log has what rt said"
    if not text.startswith(REFUSED) or ONLY_A_NAME in text:
        return text
    if is_elsewhere(slip, text):
        return "its first error is not at %s: %s" % (place_of(slip), text)
    return None

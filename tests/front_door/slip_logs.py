"""tests/slips on what rt says, made up: only a refusal of its own tells a
slip."""

import tempfile
from pathlib import Path

from front_door import alone, gathering, slips

# What rt says of an edit, and whether that tells the slip that is alone in it:
# HERE is the folder of its function's proof, AT its source.
SAID = (
    ("refused, as it must be: ./HEREProof.antt:9:9: error: `returns`: "
     "they differ", True),
    ("refused, as it must be: note: AT:9:9: it is not proved that what the "
     "function ensures holds when it returns (`returns`)", True),
    ("refused, as it must be", True),
    ("refused, as it must be (only by a limit of the prover, which gave no "
     "verdict, so this says less of the contract: choose a change that it "
     "refuses sooner): ./HEREProof.antt:9:9: error: `returns`", True),
    ("refused, as it must be: ./proofs/elsewhere/Proof.antt:9:9: error: "
     "`returns`: they differ", False),
    ("refused, as it must be: note: src/elsewhere.rt:9:9: it is not proved "
     "that the index is within the slice (`bounds-s-i`)", False),
    ("refused, as it must be (only because a proof file names what the edit "
     "took away, so this says little of the contract: change a value and keep "
     "the names): ./HEREProof.antt:9:9: error: a record has no field",
     False),
    ("NOT REFUSED: the crate is still proved with this edit", False),
    ("BAD EDIT: an 'old:' text is in src/lib.rt 0 times, and not once", False),
    ("NOT TRIED: its check was killed, most likely for memory", False))
LINE = "== %s\nrt: must-fail %s/%s.edit: %s\nrt: %s proved\n"


def chosen():
    """A slip in a function, which shares its edit."""
    return next(slip for slip in slips.gathered() if not slip.told)


def of(slip, words):
    return words.replace("HERE", slips.place_of(slip)).replace(
        " AT:", " %s:" % slip.steps[0][0])


def tells():
    slip = chosen()
    for words, told in ((of(slip, words), told) for words, told in SAID):
        log = LINE % (slip.crate, slip.crate, slip.name, words, slip.crate)
        found = alone.trouble(slip, alone.said_in(log))
        if (found is None) != told:
            return "%s: %s" % (words, found)
    return None


def not_of_another():
    """What is said of another slip, or of the edit that it is in, tells
    nothing, nor does a line of the prover."""
    slip = chosen()
    words = of(slip, SAID[0][0])
    log = "".join(LINE % (slip.crate, crate, name, words, slip.crate)
                  for crate, name in ((slip.crate, "another"),
                                      ("another", slip.name),
                                      (slip.crate, slip.edit)))
    log += "must-fail %s/%s.edit: %s\n" % (slip.crate, slip.name, words)
    return alone.trouble(slip, alone.said_in(log)) is None and "it is told"


def laid_out():
    """Each slip has an edit of its own there, which fits, and there is no
    other; nothing of the crates is missing."""
    found = slips.gathered()
    with tempfile.TemporaryDirectory() as folder:
        alone.lay_out(Path(folder), found)
        there = {path.relative_to(folder)
                 for path in Path(folder).rglob("must-fail/*")}
        read = [slips.slips(Path(folder) / path) for path in sorted(there)]
        sources = {path.relative_to(folder)
                   for path in Path(folder).rglob("src/*.rt")}
    wanted = {Path("crates", slip.crate, "must-fail", slip.name + ".edit")
              for slip in found}
    missing = {path.relative_to(slips.ROOT)
               for path in slips.ROOT.glob("crates/*/src/*.rt")} - sources
    steps = {(slip.crate, slip.name, slip.steps) for slip in found}
    return (there != wanted and "edits: %s" % (there ^ wanted)
            or missing and "missing: %s" % missing
            or {(slip.crate, slip.name, slip.steps) for each in read
                for slip in each} != steps and "other slips"
            or any(len(each) != 1 for each in read) and "several in one")


def not_two_at_one_place():
    """Two slips of one function never share an edit."""
    slip = chosen()
    return not slips.mixed(slip, slip._replace(name="another")) and "mixed"


def read_again():
    """What is written of slips, together or alone, is read as it was."""
    crate = chosen().crate
    found = [slip for slip in slips.gathered() if slip.crate == crate]
    with tempfile.TemporaryDirectory() as folder:
        path = Path(folder) / crate / "must-fail" / "made.edit"
        path.parent.mkdir(parents=True)
        for batch in (found, found[:1]):
            path.write_text(gathering.written(batch))
            again = slips.slips(path)
            if [(slip.words, slip.steps, slip.told) for slip in again] != [
                    (slip.words, slip.steps, slip.told) for slip in batch]:
                return "%d slips: %s" % (len(batch), again)
    return None


def tests(_):
    yield "tests/slips: a refusal of its own tells a slip", tells
    yield "tests/slips: a refusal of another doesn't", not_of_another
    yield "tests/slips: each slip has an edit of its own", laid_out
    yield "tests/slips: two slips in one function", not_two_at_one_place
    yield "tests/slips --gather: what is written is read again", read_again

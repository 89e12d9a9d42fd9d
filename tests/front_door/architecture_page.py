"""docs/ARCHITECTURE.md: its table has each crate once, its map each proof of
the model, and the page is short.  The proofs of arrival and ahead are told in
their Lib.antt."""

import re

from front_door.command import ROOT
from front_door.crate_names import depends
from front_door.pages import inline_code, page, table

PAGE = "docs/ARCHITECTURE.md"
PROOFS = ROOT / "crates/model/proofs"
TOLD_IN_LIB = ("arrival", "ahead")
MOST_BYTES = 24576


def differing(wanted, found):
    """What stands in one of two lists only, or twice in the second."""
    twice = {name for name in found if found.count(name) > 1}
    wrong = sorted(set(wanted) ^ set(found) | twice)
    return wrong and "missing, unknown or twice: " + ", ".join(wrong)


def first_column(head):
    return [name for row in table(page(PAGE), head)
            for name in inline_code(row[0])]


def crates():
    return differing([*depends()], first_column("Crate"))


def proofs_of_the_model():
    """Each file stands there once, in the order of Lib.antt."""
    shown = first_column("Proof")
    listed = re.findall(r"^pub mod (\w+)", (PROOFS / "Lib.antt").read_text(),
                        re.MULTILINE)
    return differing([path.stem for path in PROOFS.iterdir()], shown) or (
        shown != ["Lib", *listed] and "in another order than Lib.antt's")


def untold(lib):
    """The files that Lib.antt names without a line over them that says what
    they are for."""
    lines = ["", *lib.splitlines()]
    return [line[len("pub mod "):] for before, line in zip(lines, lines[1:])
            if line.startswith("pub mod ")
            and not re.match("-- [^-]", before)]


def proofs_told_in_lib():
    wrong = ["%s/%s" % (crate, name) for crate in TOLD_IN_LIB for name in
             untold((ROOT / "crates" / crate / "proofs/Lib.antt").read_text())]
    return wrong and "nothing says what it is for: " + ", ".join(wrong)


def size():
    length = len(page(PAGE).encode())
    return length > MOST_BYTES and "%d bytes" % length


def a_slip_is_told():
    told = [differing(["one", "two"], ["one", "one", "three"]),
            untold("-- ---- part\npub mod A\n-- b's\npub mod B\npub mod C")]
    return told != ["missing, unknown or twice: one, three, two",
                    ["A", "C"]] and "%s" % told


TESTS = (crates, proofs_of_the_model, proofs_told_in_lib, size,
         a_slip_is_told)


def tests(programs):
    for test in TESTS:
        yield "docs: architecture, " + test.__name__.replace("_", " "), test

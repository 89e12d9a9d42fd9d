"""docs/PROVED.md: each theorem and function stands in the file that is given
for it, and the page has those that proof_files.py asks for."""

import re

from front_door.command import ROOT
from front_door.pages import anchors, inline_code, links, page, places, table
from front_door.proof_files import (
    CRATES, asked_for, declared, functions_in, shown_functions)

PAGE = "docs/PROVED.md"
SPECS = CRATES / "model/specs"
OTHER_SPECS = "arrival", "ahead"        # counted in one number
# Laws that nothing uses any more, and that say nothing to a reader.
LEFT_OVER = {
    "domeplan/proofs/Taking.antt": {"some-came", "goes-regular"},
    "model/proofs/NewestFrame.antt": {"sought-if-come"},
    "nazgolv/proofs/PlayRecords.antt": {"found_as", "read_as"},
    "nazgolv/proofs/Unmoved.antt": {"other-leaves"},
    "planwords/proofs/DraftsAsked.antt": {"draft-flows"},
    "shares/proofs/EachOnce.antt": {"same_true", "same_self"},
}


def tables(first, width):
    """The rows of all tables with this first head and so many columns."""
    rows = []
    for part in page(PAGE).split("\n\n"):
        rows += [row for row in table(part, first) if len(row) == width]
    return rows


def rows():
    """The file and the names of each row, and which of the two it is about."""
    for said, names, where, premise in tables("Said", 4):
        yield where, inline_code(names), declared
    for said, names, where, premise in tables("What the result is", 4):
        yield where, inline_code(names), functions_in


def names_by_file():
    named = {}
    for where, names, _ in rows():
        named.setdefault(CRATES / where.strip("`"), set()).update(names)
    return named


def every_cell_is_filled():
    wrong = [row[0][:40] for head in ("Said", "What the result is")
             for row in tables(head, 4) if not all(row)]
    return wrong and "an empty cell: " + "; ".join(wrong)


def each_name_is_in_its_file():
    """And a row has one file and at least one name."""
    wrong, found = [], 0
    for where, names, stands_in in rows():
        path = CRATES / where.strip("`")
        if not path.is_file() or not names:
            wrong.append("%s with %s" % (where, names))
            continue
        found += len(names)
        wrong += ["%s: %s" % (where, name) for name in names
                  if name not in stands_in(path)]
    return wrong and "; ".join(wrong) or (found < 200 and "only %d" % found)


def missing(wanted):
    """Those of some files and names that the page doesn't have there."""
    named = names_by_file()
    return ["%s: %s" % (path.relative_to(CRATES), name)
            for path, name in wanted if name not in named.get(path, ())]


def every_theorem_that_is_asked_for():
    wanted = [(each.path, each.name) for each in asked_for()
              if each.name not in LEFT_OVER.get(
                  str(each.path.relative_to(CRATES)), ())]
    return "; ".join(missing(wanted)) or (
        len(wanted) < 100 and "only %d are asked for" % len(wanted))


def what_is_left_over_is_there():
    """Else the list above has to be shorter."""
    asked = {(str(each.path.relative_to(CRATES)), each.name)
             for each in asked_for()}
    wrong = ["%s: %s" % (where, name) for where, names in LEFT_OVER.items()
             for name in names if (where, name) not in asked]
    return wrong and "not left over: " + "; ".join(wrong)


def every_function_that_is_shown():
    wanted = list(shown_functions())
    return "; ".join(missing(wanted)) or (
        len(wanted) < 40 and "only %d" % len(wanted))


def every_clause_of_demand_3():
    """The table has those of Claim.antt and no other."""
    lines = re.findall(r"^  ([a-z_ -]+) : Clause$",
                       (SPECS / "Claim.antt").read_text(), re.MULTILINE)
    right = sorted(name for line in lines for name in line.split())
    has = sorted(name for row in table(page(PAGE), "Clause")
                 for name in inline_code(row[0]))
    return (not right or has != right) and "%s for %s" % (has, right)


def spec_lines(paths):
    """Lines with something else than a comment."""
    lines = [line.strip() for path in paths
             for line in path.read_text().splitlines()]
    return sum(1 for line in lines if line and not line.startswith("--"))


def named_in(text):
    return [SPECS / (module + ".antt")
            for module in re.findall(r"^pub mod (\w+)", text, re.MULTILINE)]


def lines_of_specs():
    index = (SPECS / "Lib.antt").read_text().partition("-- worked examples")
    counts = [spec_lines(named_in(half)) for half in (index[0], index[2])]
    others = spec_lines(path for crate in OTHER_SPECS
                        for path in CRATES.glob(crate + "/specs/*.antt")
                        if path.name != "Lib.antt")
    wrong = [words for words in (
        "{:,} lines without comments, and {:,} more".format(*counts),
        "have {:,}.".format(others)) if words not in page(PAGE)]
    return wrong and "it has to say: " + "; ".join(wrong)


def files_and_links_are_there():
    text = page(PAGE)
    wrong = [name for line in text.splitlines()
             for name, place in places(line) if place is None]
    wrong += [link for link in links(text)
              if not (link[1:] in anchors(text) if link.startswith("#")
                      else (ROOT / "docs" / link).exists())]
    return wrong and "not there: " + ", ".join(wrong)


def names_are_told_apart():
    """Fields of records and what others use are not asked for, claims are
    that others use, and a name that isn't there is missed."""
    path = CRATES / "program/proofs/Demand3.antt"
    asked = {(str(each.path.relative_to(CRATES)), each.name)
             for each in asked_for()}
    told = ["written-meets" in declared(path), "lines_are" in declared(path),
            ("model/proofs/Demand3.antt", "meets") in asked,
            ("model/proofs/Demand3.antt", "each_map") in asked,
            ("link/proofs/Demand3.antt", "code_meets") in asked,
            missing([(path, "no-such-name"), (path, "written-meets")])]
    return told != [True, False, True, False, True, [
        "program/proofs/Demand3.antt: no-such-name"]] and "%s" % told


TESTS = (every_cell_is_filled, names_are_told_apart, each_name_is_in_its_file,
         every_theorem_that_is_asked_for, what_is_left_over_is_there,
         every_function_that_is_shown, every_clause_of_demand_3,
         lines_of_specs,
         files_and_links_are_there)


def tests(programs):
    for test in TESTS:
        yield "docs: proved, " + test.__name__.replace("_", " "), test

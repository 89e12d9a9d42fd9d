"""docs/RULES.md and docs/REFUSALS.md hold together: rules are numbered in
order, each refusal has its rule, its definition and its code, and whatever is
named is there."""

import re

from edges import refusals_page
from front_door.command import ROOT
from front_door.pages import below, inline_code, page
from front_door.rule_book import (
    citations, cited, decided, given_by, is_in, named, pair, rules, sections)
from simulator.listing import simulate

# Rules are cited in the files below these.
CITING = ("crates", "docs", "tests", "tools", "include", "player", "bench",
          "flights")
CITING_FILES = ("README.md", "CONTRIBUTING.md", "play", "plan", "dome",
                "check-log")
# The papers behind the rules, by name.
PAPER = re.compile(r"\b[Dd]oc(?:ument)?s? ?0\d\d?\b|\bN(?:1[0-4]|[1-9])\b")
# History is told there.
TOLD = ("docs/landings/", "docs/history/", "docs/DECISIONS.md",
        "docs/COMPARISON.md", "docs/PERFORMANCE.md")
BYTES = re.compile(r"(?:[0-9A-F]{2} ?)+")
LINE = re.compile(r"[PGRCT](?: \S+)?")


# ---- rules

def numbers_are_in_order():
    found = [pair(number) for number, _, _ in rules()]
    wrong = ["%d.%d" % after for before, after in zip(found, found[1:])
             if after <= before]
    return wrong and "out of order: " + ", ".join(wrong)


def sections_are_in_order():
    heads = sections()
    wrong = heads != list(range(1, len(heads) + 1)) and "sections: %s" % heads
    odd = [number for number, _, section in rules()
           if pair(number)[0] != section]
    return wrong or (odd and "in another section: " + ", ".join(odd))


def cited_rules_are_there():
    known = {number for number, _, _ in rules()}
    wrong = [number for name in ("docs/RULES.md", "docs/REFUSALS.md")
             for number in cited(page(name)) if number not in known]
    return wrong and "no rule " + ", ".join(wrong)


def definitions_are_there():
    lines = [line for line in page("docs/RULES.md").splitlines()
             if line.startswith("Definitions: ")]
    wrong = ["%s in %s" % (name, path) for line in lines
             for path, name in named(line) if not is_in(path, name)]
    few = len(sections()) - len(lines) > 1 and "%d of %d sections" % (
        len(lines), len(sections()))
    return few or (wrong and "no " + "; no ".join(wrong))


def example_is_right():
    """Rule 13.6: the bytes through the simulator have the page's lines."""
    text = next(text for number, text, _ in rules() if number == "13.6")
    codes = inline_code(text)
    data = [code for code in codes if BYTES.fullmatch(code)]
    lines = [code for code in codes if LINE.fullmatch(code)]
    heard = simulate(bytes.fromhex(" ".join(data)))
    return heard != lines and "%s, and not %s" % (heard, lines)


def reasons_are_those_of_the_code():
    """Rules 20.6 and 25.6: each reason of domeplan and domeshow is on the
    page, and no other."""
    text = " ".join(text for number, text, _ in rules()
                    if number in ("20.6", "25.6"))
    told = {reason for reason in inline_code(text) if " " in reason}
    code = {reason for path in ROOT.glob("crates/*/src/*.rt") for reason in
            re.findall(r'b"\? ([^"]*)\\n"', path.read_text())}
    wrong = sorted(told ^ code)
    return wrong and "on one side alone: " + "; ".join(wrong)


# ---- refusals

def every_refusal_has_a_rule():
    wrong = [str(number) for number in refusals_page.ALL
             if not given_by(number)]
    return wrong and "in no rule: " + ", ".join(wrong)


def every_refusal_is_decided():
    rows = {number for number, *_ in decided()} & refusals_page.numbers()
    wrong = [str(number) for number in refusals_page.ALL if number not in rows]
    return wrong and "no row for " + ", ".join(wrong)


def refusals_and_rules_agree():
    """The rules whose tests give a number are those that its rows name; a row
    may name others too, but has one of them."""
    wrong = []
    for number in refusals_page.ALL:
        rows = [set(cites) for row, cites, _, _ in decided() if row == number]
        gives = given_by(number)
        if gives - set().union(*rows) or not all(row & gives for row in rows):
            wrong.append("%d (rules %s)" % (number, ", ".join(sorted(gives))))
    return wrong and "not so in the rows of " + "; ".join(wrong)


def places_are_there():
    """The definitions and functions of each row."""
    wrong = ["%s in %s" % (name, path)
             for _, _, defined, code in decided()
             for cell in (defined, code)
             for path, name in named(cell) if not is_in(path, name)]
    empty = [str(number) for number, _, defined, code in decided()
             if not list(named(code)) or not (
                 list(named(defined)) or defined == "in the code alone")]
    return (empty and "no place for " + ", ".join(empty)) or (
        wrong and "no " + "; no ".join(wrong))


# ---- the other pages, the tests and the sources

def texts():
    """Every text that may cite a rule, by its path from the root."""
    paths = [path for folder in CITING for path in below(ROOT / folder)]
    for path in paths + [ROOT / name for name in CITING_FILES]:
        if path.is_file() and path.suffix != ".pyc":
            try:
                yield str(path.relative_to(ROOT)), path.read_text()
            except UnicodeDecodeError:
                continue


def citations_hold():
    known = {number for number, _, _ in rules()}
    wrong = ["%s in %s" % (number, name) for name, text in texts()
             if name != "tests/front_door/citations.py"
             for number in citations(text) if number not in known]
    return wrong and "no rule " + "; no rule ".join(wrong)


def papers_are_named_in_history_alone():
    """And in the table at the end of the rule book."""
    wrong = []
    for name, text in texts():
        if name == "docs/RULES.md":
            text = text.partition("## Where the rules come from")[0]
        if name == "README.md" or name.startswith(TOLD):
            continue
        if name != "tests/front_door/rules_page.py" and PAPER.search(text):
            wrong.append("%s: %s" % (name, PAPER.search(text).group()))
    return wrong and "; ".join(wrong)


TESTS = (numbers_are_in_order, sections_are_in_order, cited_rules_are_there,
         definitions_are_there, example_is_right,
         reasons_are_those_of_the_code, every_refusal_has_a_rule,
         every_refusal_is_decided, refusals_and_rules_agree, places_are_there,
         citations_hold, papers_are_named_in_history_alone)


def tests(programs):
    for test in TESTS:
        yield "docs: rules, " + test.__name__.replace("_", " "), test

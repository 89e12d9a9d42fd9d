"""Each rule of docs/RULES.md is cited by a definition and by an executed test;
what is in the code alone stands in a list of docs/PROVED.md."""

import re

from front_door.command import ROOT
from front_door.pages import below, page, table
from front_door.rule_book import citations, cited, rules

# Folders whose tests are executed; the simulator and the generator have none.
EXECUTED = ("ahead", "demand3", "driver", "edges", "front_door", "images",
            "pairs", "ways", "shows")
HEAD = {".antt": re.compile(r"(?:--.*\n)+"),
        ".py": re.compile(r'"""(?:.|\n)*?"""')}
COMMENT = {".antt": re.compile(r"(?:^|\s)--(?: .*)?$", re.MULTILINE),
           ".rt": re.compile(r"(?:^|\s)//(?: .*)?$", re.MULTILINE)}
QUOTED = re.compile(r'"([^"\n]*[a-z] [^"\n]*)"')
LIST = "Rule"           # the head of the list's first column


def known():
    return [number for number, _, _ in rules()]


def body(path):
    """A file's text but for its head, which is about all of it."""
    text = path.read_text()
    head = HEAD[path.suffix].match(text)
    return text[head.end():] if head else text


def citing(paths, whole=False):
    """The rules that some files cite beside what is about them."""
    return {number for path in paths for number in citations(
        path.read_text() if whole else body(path))}


def by_definitions():
    return citing(ROOT.glob("crates/*/specs/*.antt"))


def by_code():
    return citing(ROOT.glob("crates/*/src/*.rt"), whole=True)


def by_tests():
    return citing(path for folder in EXECUTED
                  for path in (ROOT / "tests" / folder).glob("*.py")
                  if path.name != "citations.py")


def listed():
    """The rules that docs/PROVED.md says no theorem speaks of, and why."""
    return {number: why for numbers, why in table(page("docs/PROVED.md"), LIST)
            for number in cited(numbers)}


# ---- the tests

def each_rule_has_a_definition():
    """Or stands in the list, and the code cites it."""
    found = by_definitions() | (by_code() & set(listed()))
    wrong = [number for number in known() if number not in found]
    return wrong and "cited by none: " + ", ".join(wrong)


def each_rule_has_a_test():
    found = by_tests()
    wrong = [number for number in known() if number not in found]
    return wrong and "cited by none: " + ", ".join(wrong)


def the_list_has_reasons():
    """Each rule of the list is there, and so is its reason; there is no list
    of all rules."""
    wrong = [number for number, why in listed().items()
             if number not in known() or not why]
    return (wrong and "not so: " + ", ".join(wrong)) or (
        not 0 < len(listed()) < len(known()) // 4 and "%d" % len(listed()))


def comments_quote_the_rule_book_alone():
    """Definitions, proofs and code cite, and have words of their own."""
    book = page("docs/RULES.md")
    paths = [path for path in below(ROOT / "crates")
             if path.suffix in COMMENT]
    wrong = ["%s: %s" % (path.relative_to(ROOT), quoted) for path in paths
             for comment in COMMENT[path.suffix].findall(path.read_text())
             for quoted in QUOTED.findall(comment) if quoted not in book]
    return wrong and "; ".join(wrong)


def citations_are_told():
    """Ranges, lists and numbers after a break; and a head doesn't count."""
    right = {
        "-- RULES 6.3: a tile": ["6.3"],
        "rules 8.1 to 8.3": ["8.1", "8.1", "8.2", "8.3", "8.3"],
        "-- RULES 5.2,\n-- 5.3 and\n  -- 9.9 are": ["5.2", "5.3", "9.9"],
        "RULES 20.6.3, and 20.5 too; 1.2 isn't": ["20.6", "20.5"],
        "version 4.5.3, RULES.md, the rule of 2.3": []}
    wrong = ["%r: %s" % (text, citations(text))
             for text, numbers in right.items() if citations(text) != numbers]
    head = HEAD[".antt"].match("-- RULES 1.1\n-- on\nuse x\n-- RULES 1.2")
    return wrong and "; ".join(wrong) or (
        head.group() != "-- RULES 1.1\n-- on\n" and head.group())


TESTS = (each_rule_has_a_definition, each_rule_has_a_test,
         the_list_has_reasons, comments_quote_the_rule_book_alone,
         citations_are_told)


def tests(programs):
    for test in TESTS:
        yield "docs: rules, " + test.__name__.replace("_", " "), test

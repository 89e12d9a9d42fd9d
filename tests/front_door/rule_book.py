"""What stands in docs/RULES.md and docs/REFUSALS.md: rules by their numbers,
and names by their files."""

import re

from edges.refusals_page import cells_of
from front_door.command import ROOT
from front_door.pages import FILE, inline_code, page

RULE = re.compile(r"^\*\*(\d+)\.(\d+)\*\* ")
SECTION = re.compile(r"^## (\d+)\. ")
CITED = re.compile(r"(?<![\d.,])(\d+\.\d+)(?![\d.]*\d)")
# As definitions cite them, and as tests and pages do.
CITATION = re.compile(
    r"\b(?:RULES|[Rr]ules?)\s+((?:\d+\.\d+(?:\.\d)?"
    r"(?:,?\s+(?:and|to|or)\s+|,\s+)?)+)")
NUMBER = re.compile(r"(\d+\.\d+)(?:\.\d)?|\b(to)\b")
LEADER = re.compile(r"\n\s*(?:--|//|#)(?=[ \n])")
DEFINITION = r"^\s*(?:abbrev |unfoldable )?pub (?:record |data )?%s\b"
FUNCTION = r"\bfn %s\b"


def pair(number):
    """A rule's number as two."""
    section, rule = number.split(".")
    return int(section), int(rule)


def rules():
    """Each rule's number beside its text, and the section that it stands in;
    what comes after a rule up to the next one is part of it."""
    section, found = None, []
    for line in page("docs/RULES.md").splitlines():
        head, begun = SECTION.match(line), RULE.match(line)
        if line.startswith("## "):
            section = int(head.group(1)) if head else None
        elif begun:
            found.append(["%s.%s" % begun.groups(), line, section])
        elif found and section and not line.startswith("Definitions: "):
            found[-1][1] += "\n" + line
    return found


def sections():
    heads = map(SECTION.match, page("docs/RULES.md").splitlines())
    return [int(head.group(1)) for head in heads if head]


def cited(text):
    """The numbers of the rules that a text names."""
    return CITED.findall(text)


def between(first, last):
    """The numbers of the rules from one to another."""
    return [number for number, _, _ in rules()
            if pair(first) <= pair(number) <= pair(last)]


def citations(text):
    """The numbers of the rules that are cited as rules; of 'A to B' those
    between them too.  A comment may break anywhere."""
    found = []
    for group in CITATION.findall(LEADER.sub(" ", text)):
        upto = False
        for number, to in NUMBER.findall(group):
            if upto and number:
                found += between(found[-1], number)
            found += [number] if number else []
            upto = bool(to)
    return found


def given_by(number):
    """The rules with a test that gives this refusal."""
    return {rule for rule, text, _ in rules() if "[%d]" % number in text}


def decided():
    """Of each row that says where a refusal is decided: its number, its
    rules, and the cells for definition and code."""
    return [(int(cells[0]), cited(cells[1]), cells[2], cells[3])
            for cells in cells_of(page("docs/REFUSALS.md").splitlines())
            if len(cells) == 4 and cells[0].isdecimal()]


def named(text):
    """Each file that a text names in code, with each name after it."""
    path = None
    for name in inline_code(text):
        if FILE.fullmatch(name) and "/" in name:
            path = name
        elif path:
            yield path, name


def is_in(path, name):
    """Whether a file of definitions or of code has this name."""
    if not (ROOT / path).is_file():
        return False
    form = FUNCTION if path.endswith(".rt") else DEFINITION
    return re.search(form % re.escape(name), page(path), re.MULTILINE)

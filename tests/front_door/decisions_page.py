"""docs/DECISIONS.md: each decision stands once, is short, and is there where
another file cites it by its number."""

import re
from functools import lru_cache

from front_door.command import ROOT
from front_door.pages import anchors, below, links, page

PAGE = "docs/DECISIONS.md"
HISTORY = "docs/history/decisions.md"
TOLD_THEN = ("CHANGELOG.md", "docs/landings/", "docs/history/")
ENTRY = re.compile(r"^\*\*(\d+)\. ", re.MULTILINE)
LIST = r" (\d+(?:(?:,| and| or| to) \d+)*)"
CITED = re.compile(r"\b[Dd]ecisions?" + LIST)
ALSO_CITED = re.compile(r"\b(?:[Dd]ecisions?|[Ss]ee)" + LIST)   # on the page
MOST_LINES, WIDEST = 9, 150


def entries(name):
    """The number and the lines of each entry of a page."""
    parts = ENTRY.split(page(name))[1:]
    return [(int(number), text.partition("\n#")[0].strip().splitlines())
            for number, text in zip(parts[::2], parts[1::2])]


def numbers(name):
    return [number for number, lines in entries(name)]


def cited_in(text, form=CITED):
    """The numbers that a text cites, a range by all that it spans."""
    for cited in form.findall(" ".join(text.split())):
        for part in re.split(r",\s+|\s+and\s+|\s+or\s+", cited):
            ends = [int(end) for end in part.split(" to ")]
            yield from range(ends[0], ends[-1] + 1)


@lru_cache(maxsize=None)
def texts():
    """Each file of the tree that is text, with its name."""
    found = {}
    for path in below(ROOT):
        if path.is_file():
            text = path.read_bytes().decode("utf-8", errors="ignore")
            found[str(path.relative_to(ROOT))] = text
    return found


def cited_are_there():
    """Pages of what was may cite what was superseded; others may not."""
    now, then = set(numbers(PAGE)), set(numbers(HISTORY))
    wrong = ["%s: %d" % (name, number) for name, text in texts().items()
             for number in cited_in(
                 text, ALSO_CITED if name == PAGE else CITED)
             if number not in now and not (
                 number in then and name.startswith((*TOLD_THEN, PAGE)))]
    return wrong and "no such decision: " + ", ".join(wrong)


def each_stands_once():
    both = numbers(PAGE) + numbers(HISTORY)
    twice = sorted({str(each) for each in both if both.count(each) > 1})
    return twice and "twice: " + ", ".join(twice)


def each_is_short():
    long = [str(number) for number, lines in entries(PAGE)
            if len(lines) > MOST_LINES
            or any(len(line) > WIDEST for line in lines)]
    return long and "too long: " + ", ".join(long)


def every_subject_is_linked():
    text = page(PAGE)
    linked = {link[1:] for link in links(text) if link.startswith("#")}
    wrong = linked ^ (anchors(text) - {"decisions"})
    return wrong and "no link or no heading: " + ", ".join(sorted(wrong))


def citations_are_found():
    text = "decision 3, as Decisions 4, 5 and 7 to\n9 say it (See 98: ..)"
    found = list(cited_in(text, ALSO_CITED))
    return found != [3, 4, 5, 7, 8, 9, 98] and "%s" % found


TESTS = (cited_are_there, each_stands_once, each_is_short,
         every_subject_is_linked, citations_are_found)


def tests(programs):
    for test in TESTS:
        yield "docs: decisions, " + test.__name__.replace("_", " "), test

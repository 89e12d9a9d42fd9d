"""docs/COMPARISON.md: its run against shared credits, column by column, and
the names of theorems and files that it points to."""

import re

from edges.refusals_page import cells_of
from front_door.command import ROOT, start, trouble
from front_door.shared_credits import SharedCredits

PAGE = ROOT / "docs/COMPARISON.md"
CREDIT = re.compile(r"flow (\d+) credit dated (\d+)")
ASKS = re.compile(r"flow (\d+) asks")
NAME = re.compile(r"`([^`]+)`")
LOOKED_AT = 13                  # the slot whose free places the table has
OVER = -1                       # and how many there are in the end
IN_WORDS = {"R 12": "refused, 12", "C": "taken"}


def lines():
    return PAGE.read_text().splitlines()


def rows():
    """Call, answer of 000's rule, free places, and our answer."""
    return [cells for cells in cells_of(lines())
            if len(cells) == 4 and re.match(r"flow \d", cells[0])]


def call_file():
    """The bytes of the page's call file, and the lines of its listing."""
    shown = [line.strip() for line in lines() if line.startswith("    ")]
    return bytes.fromhex(" ".join(shown[:-1])), shown[-1].split(", ")


def made(link, call):
    """The answer of 000's rule to a call, in the table's words."""
    credit = CREDIT.fullmatch(call)
    if credit:
        link.credit(int(credit.group(2)))
        return "taken"
    slot = link.ask(int(ASKS.fullmatch(call).group(1)))
    return "refused" if slot is None else str(slot)


def shared_column():
    """000's rule gives the table's answers and free places."""
    link = SharedCredits(4, 4, 4, [2, 2])
    for call, answer, free, _ in rows():
        got = made(link, call), str(link.free(LOOKED_AT))
        if got != (answer, free):
            return "%s: %s, %s" % (call, *got)
    return None if link.free(LOOKED_AT) == OVER else "it ends within bounds"


def with_ticks():
    """The page's second run, with a tick after each request."""
    link = SharedCredits(4, 4, 4, [2, 2])
    answers = []
    for flow, dated in ((0, None), (0, 4), (0, 5), (0, None), (0, None),
                        (1, None), (1, None), (1, None)):
        answers.append(link.ask(flow))
        if dated:
            link.credit(dated)
        link.tick()
    if answers != [1, 2, None, 12, 13, 6, 7, 8]:
        return "other slots: %s" % answers
    return None if link.free(LOOKED_AT) == OVER else "it ends within bounds"


def played(program):
    """The page's call file has its listing."""
    data, listing = call_file()
    return trouble(start([program], input=data),
                   output="".join(line + "\n" for line in listing).encode())


def own_column():
    """The table's last column is the listing in words."""
    words = [IN_WORDS.get(line, line[2:]) for line in call_file()[1][1:]]
    return None if words == [row[3] for row in rows()] else "it differs"


def is_there(name, sources):
    """A file of this repository, or a name in the definitions and proofs."""
    if "/" in name:
        return (ROOT / name).exists()
    return re.search(r"(?<![\w-])%s(?![\w-])" % re.escape(name), sources)


def names():
    """Every name that the page points to is there."""
    sources = "\n".join(path.read_text() for folder in ("specs", "proofs")
                        for path in ROOT.glob("crates/*/%s/*.antt" % folder))
    lost = sorted({name for name in NAME.findall(PAGE.read_text())
                   if not is_there(name, sources)})
    return ", ".join(lost) or None


def tests(programs):
    yield "docs: COMPARISON, the run by 000's rule", shared_column
    yield "docs: COMPARISON, that rule with ticks", with_ticks
    yield ("docs: COMPARISON, the run here",
           lambda: played(programs["domelink"]))
    yield "docs: COMPARISON, its column", own_column
    yield "docs: COMPARISON, names", names

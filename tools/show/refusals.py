"""The rows of docs/REFUSALS.md: when a number is given, and what to do."""

import re
from pathlib import Path

PAGE = Path(__file__).resolve().parents[2] / "docs/REFUSALS.md"
# A row of the table that has what to do: five columns, the last two of which
# are an input and its last line.
ROW = re.compile(r"^\| (\d+) \| ([^|]*) \| ([^|]*) \|[^|]*\|[^|]*\|$")
ELSEWHERE = "; for the mesh and for delays see below"     # of the page alone


class Refusal:
    """A row: both are sentences without capital and full stop."""

    def __init__(self, number, when, what_to_do):
        self.number = number
        self.when = when
        self.what_to_do = what_to_do


def rows():
    """The page's rows by number; none where the page is missing."""
    try:
        lines = PAGE.read_text(encoding="utf-8").splitlines()
    except OSError:
        lines = []
    found = {}
    for row in filter(None, map(ROW.match, lines)):
        number = int(row.group(1))
        found.setdefault(number, []).append(Refusal(
            number, row.group(2), row.group(3).replace(ELSEWHERE, "")))
    return found


def refusal(number, kind, known):
    """The row for a call of this kind, out of what rows() gave: where a
    number has several, a lend's is the one that speaks of it."""
    candidates = known.get(number) or [Refusal(
        number, "see docs/REFUSALS.md", "")]
    for row in candidates:
        if ("lend's" in row.when) == (kind == "lend"):
            return row
    return candidates[0]

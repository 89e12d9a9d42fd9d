"""Speeds that are lost: the ratios of now beside those that
docs/PERFORMANCE.md has.

A ratio is our time by that of plain Rust on the same machine in the same run,
so that another machine changes it little.  What has no ratio, as a question
of the editor, is held to its mark alone."""

import re

MORE = 1.10                     # a ratio may be 10 of 100 above the page's
WHAT, RATIO = 0, 3              # the cells of a row
A_RATIO = re.compile(r"\d+\.\d+")


def ratios(lines):
    """What each row of a table is of, with its ratio."""
    rows = [[cell.strip() for cell in line.strip("|").split("|")]
            for line in lines if line.startswith("| ")]
    return {row[WHAT]: float(row[RATIO]) for row in rows
            if len(row) > RATIO and A_RATIO.fullmatch(row[RATIO])}


def fallen(before, now):
    """Rows that are slower: what, the ratio of now, and the one before.  One
    that a table doesn't have is compared with nothing."""
    before, now = ratios(before), ratios(now)
    return [(what, ratio, before[what]) for what, ratio in now.items()
            if what in before and ratio > MORE * before[what] + 1e-9]


def compared(before, now):
    """How many rows both tables have with a ratio."""
    return len(ratios(before).keys() & ratios(now).keys())


def sentence(before, now):
    """What is said of the two tables, and whether a speed is lost."""
    slower = fallen(before, now)
    if not slower:
        return ("of %d ratios none is more than 10 of 100 above that of "
                "docs/PERFORMANCE.md" % compared(before, now), False)
    rows = ", ".join("%s %.2f, was %.2f" % row for row in slower)
    return ("a speed is lost, the ratio to plain Rust is more than 10 of 100 "
            "above that of docs/PERFORMANCE.md: %s; measure again alone on "
            "the machine, and if it stays look for the change that lost it"
            % rows, True)

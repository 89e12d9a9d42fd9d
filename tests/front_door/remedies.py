"""What to do about a refusal, as the commands have to say it."""

import re

from edges.refusals_page import cells_of, page

REMEDIES = {
    1: "write the plan again",
    2: "ask for 1 to 16 flows; mend the header of a file",
    3: "choose F, W and N from these ranges, and a smaller frame or window "
       "where there are too many positions",
    4: "mend that flow",
    5: "make them one flow",
    6: "lower a share",
    7: "lower a flow's cells",
    28: "mend that entry, or the minute; a showing over the end of the week "
        "is two entries",
    29: "let a showing end where the next one starts, or before",
}
# What to do begins with one of these words, since a cause is no help.
VERBS = set("ask choose date give go hand lend let look lower make mend reset "
            "send start wait write".split())


def what_to_do(number):
    """The words of the line on standard error."""
    return "what to do: " + REMEDIES[number]


def every_row_says_what_to_do():
    rows = [cells for cells in cells_of(page())
            if len(cells) == 5 and cells[0].isdecimal()]
    wrong = ["%s: %s" % (cells[0], cells[2]) for cells in rows
             if re.match(r"\w*", cells[2]).group() not in VERBS]
    return (wrong or not rows) and "nothing to do: %s" % wrong


def tests(programs):
    yield "docs: every refusal has something to do", every_row_says_what_to_do

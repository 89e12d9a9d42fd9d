"""Mistakes in the second simulator's images and in the tests' own conditions
for them, each with an image by hand that tells it."""

from mutants.mutant import table

MUTANTS = table("tests/images/acceptance.py", [
    ("the current position is T", "if tables.current >= tables.total:\n"
     "        yield", "if tables.current > tables.total:\n        yield",
     "image: 22, CP is below T: T"),
    ("a mark of 2", "if tables.taken > 1:", "if tables.taken > 2:",
     "image: 22, the taken mark is 0 or 1: 2"),
    ("the turn of no flow", "if tables.first >= tables.plan.flows:",
     "if tables.first > tables.plan.flows:",
     "image: 22, the flow to look from is below n: n"),
    ("an owner that is no flow", "owner >= tables.plan.flows and",
     "owner > tables.plan.flows and",
     "image: 22, every owner is a flow or none: n"),
    ("one booking above the share", "frame) > flow.share\n",
     "frame) > flow.share + 1\n",
     "image: 22, bookings in a frame are at most the share: three to come"),
    ("a holding above the cells", "held > flow.cells for",
     "held > flow.cells + 1 for",
     "image: 22, holdings are 0 to the cells: before CP"),
    ("number 1,024", "flow.number >= 1024", "flow.number > 1024",
     "image: 22, the expected number is below 1,024: 1,024"),
    ("IF is W", "if flow.frame >= tables.frames:",
     "if flow.frame > tables.frames:", "image: 22, IF is below W: W"),
    ("less than the share", "flow.left != flow.share",
     "flow.left > flow.share",
     "image: 22, bookings in IF and C add to the share: one too few"),
    ("a rise by two", "if any(rise > 1 for", "if any(rise > 2 for",
     "image: 22, a later holding rises by at most one: just after CP"),
    ("a rise anywhere", "if any(rise > 0 and", "if any(rise > 1 and",
     "image: 22, a later holding rises only at a booked position: nobody's"),
])

"""./plan says which numbers break a limit, all of them: of numbers, and of a
file."""

import re

import call_bytes
from front_door.command import trouble
from front_door.plan_tree import REFUSED, in_trees
from front_door.remedies import REMEDIES, what_to_do

# The numbers of a plan, its refusal, and the words behind its sentence.
CULPRITS = [
    ("4 2 4", 2, "n is 0"),
    ("65 2 4  1 1 1 9", 3, "F is 65"),
    ("4 9 4  1 1 1 9", 3, "W is 9"),
    ("4 2 0  1 1 1 9", 3, "N is 0"),
    ("64 5 4  1 1 1 9", 3, "there are 320"),
    ("4 2 4  1 1 1 9  5 1 2 9", 4, "flow 1 has share 5"),
    ("4 2 4  1 0 1 9", 4, "flow 0 has 0 cells"),
    ("4 2 4  1 1 64 9", 4, "flow 0 comes from node 64"),
    ("4 2 4  1 1 9 255", 4, "flow 0 goes to node 255"),
    ("4 2 4  1 1 9 9", 4, "flow 0 goes from node 9 to 9"),
    ("4 2 4  1 1 1 9  1 1 2 9  1 1 1 9", 5, "flows 0 and 2"),
    ("4 2 4  3 1 1 9  2 1 2 9", 6, "they add to 5, and F is 4"),
    ("4 2 4  1 3 1 9  1 2 2 9", 7, "they add to 5, and N is 4"),
    ("08 2 4  09 1 1 9", 4, "flow 0 has share 9"),
]
# The same of numbers that no plan file has room for.
TOO_WIDE = [
    ("4 2 4095  1 255 1 9  1 256 2 9", 4, "flow 1 has 256 cells"),
    ("4 2 65536  1 1 1 9", 3, "N is 65536"),
    ("4 2 4000  1 1000 1 9", 4, "flow 0 has 1000 cells"),
]
# The numbers of a plan, and all that is said to be here, with its number.
SEVERAL = [
    ("4 2 4  1 1 1 9  5 1 2 9",
     ["4: flow 1 has share 5", "6: they add to 6, and F is 4"]),
    ("65 9 0  66 0 64 64",
     ["3: F is 65", "3: W is 9", "3: there are 585", "3: N is 0",
      "4: flow 0 has share 66", "4: flow 0 has 0 cells",
      "4: flow 0 comes from node 64", "4: flow 0 goes to node 64",
      "4: flow 0 goes from node 64 to 64", "6: they add to 66, and F is 65"]),
    # As large as a number can be: T is (10 ** 9 - 1) ** 2.
    (" ".join(["999999999"] * 6 + ["0"]),
     ["3: F is 999999999", "3: W is 999999999",
      "3: there are 999999998000000001", "3: N is 999999999",
      "4: flow 0 has 999999999 cells", "4: flow 0 comes from node 999999999"
      ]),
    # The first flow with the same nodes is named.
    ("8 2 8  1 1 1 9  1 1 1 9  1 1 2 9  1 1 1 9  1 1 2 9",
     ["5: flows 0 and 1", "5: flows 0 and 3", "5: flows 2 and 4"]),
    ("4 2 4  4 300 1 9  4 300 2 9",
     ["4: flow 0 has 300 cells", "4: flow 1 has 300 cells",
      "6: they add to 8, and F is 4", "7: they add to 600, and N is 4"]),
    # Rule 15.4: of more than 16 flows the first 16 are looked at.
    ("64 2 15" + "".join("  1 1 %d 63" % node for node in range(17)),
     ["2: n is 17", "7: those of the first 16 flows add to 16, and N is 15"]),
    # Of the others each is told, flow by flow, and the first with its nodes.
    ("64 2 4095" + "".join("  1 1 %d 63" % node for node in range(16))
     + "  65 0 3 63  1 1 64 64  1 1 3 63",
     ["2: n is 19", "4: flow 16 has share 65", "4: flow 16 has 0 cells",
      "5: flows 3 and 16", "4: flow 17 comes from node 64",
      "4: flow 17 goes to node 64", "4: flow 17 goes from node 64 to 64",
      "5: flows 3 and 18"]),
    # More than a question of 4,000 bytes takes.
    ("64 2 4095" + "".join("  1 1 %d %d" % (flow // 50, 13 + flow % 50)
                           for flow in range(600)) + "  0 1 1 13",
     ["2: n is 601", "4: flow 600 has share 0", "5: flows 50 and 600"]),
]
HERE = re.compile(r"plan: (?:the plan is refused|and then) with (\d+): "
                  r"[^;]*; here (.*)")


def of_numbers(tree):
    for numbers, refusal, words in CULPRITS + TOO_WIDE:
        ended = tree.start(*numbers.split())
        first, *_, last = ended.errors.splitlines()
        if (ended.status != REFUSED or ended.output
                or not first.endswith("; here " + words)
                or what_to_do(refusal) not in last):
            return "%s: %s" % (numbers, ended.errors)
    return None


def all_at_once(tree):
    """In the order of the tests; what to do about each number, once."""
    for numbers, right in SEVERAL:
        ended = tree.start(*numbers.split())
        *lines, last = ended.errors.splitlines()
        told = ["%s: %s" % (found.groups() if found else ("?", line))
                for line, found in zip(lines, map(HERE.fullmatch, lines))]
        refusals = dict.fromkeys(int(line.split(":")[0]) for line in right)
        if ended.status != REFUSED or told != right or last != (
                "plan: what to do: " + "; ".join(map(REMEDIES.get,
                                                     refusals))):
            return "%s: %s" % (numbers, ended.errors)
    return None


def the_first_twenty(tree):
    """Sixteen flows with three faults each, fifteen that are like the first,
    and a sum: 64, one and twenty of which are told."""
    ended = tree.start("4", "2", "4", *"9 0 5 5".split() * 16)
    lines = ended.errors.splitlines()
    return (len(lines) != 23 or lines[-2] != "plan: and 43 more") and (
        "%d lines, %s" % (len(lines), lines[-2:]))


def of_a_file(tree):
    for numbers, refusal, words in CULPRITS[1:]:
        slots, frames, places, *flows = map(int, numbers.split())
        entries = list(zip(*[iter(flows)] * 4))
        data = call_bytes.plan(slots, frames, places, entries)
        for option in ("--read", "--check"):
            ended = tree.start(option, "-", input=data)
            if ended.status != REFUSED or not (
                    ended.errors.splitlines()[0].endswith("; here " + words)):
                return "%s of %s: %s" % (option, numbers, ended.errors)
    return None


def of_wide_cells(tree):
    """Nothing else that 4 may be is said."""
    numbers, refusal, words = TOO_WIDE[0]
    return trouble(tree.start(*numbers.split()), REFUSED, b"",
                   "a flow's cells are 0 or above 255; here " + words,
                   what_to_do(refusal))


TESTS = (of_numbers, all_at_once, the_first_twenty, of_a_file, of_wide_cells)


def tests(programs):
    return in_trees(TESTS, programs)

"""SENT: the flow that left in each slot."""

import re
from functools import lru_cache

from check.files import MORE, Trouble, called, lines_of, shown

FLOWS = 16                      # the most that a plan has
NUMBER = re.compile(r"[0-9]{1,9}")
FROM_1 = ": does it number the flows from 1 on?"


def no_stream(number, line, name):
    return Trouble("line %d of %s is '%s', and has to be a flow's number, 0 "
                   "to %d, or -%s%s" % (number, called(name), shown(line),
                                        FLOWS - 1, FROM_1 if line == str(FLOWS)
                                        else "", MORE))


@lru_cache(maxsize=1024)
def flow_of(line):
    """The flow that left, None where nothing did, and -1 for what is no line
    of a list of streams."""
    if line == "-":
        return None
    if NUMBER.fullmatch(line) and int(line) < FLOWS:
        return int(line)
    return -1


def sent_slots(name):
    """The flow that left in each slot, from slot 1 on, None where nothing
    did.  Empty lines at the end are no slots."""
    empty = None                # the first of the empty lines read last
    for number, line in enumerate(lines_of(name, "a list of streams"), 1):
        if not line:
            empty = empty or number
            continue
        if empty is not None:
            raise no_stream(empty, "", name)
        flow = flow_of(line)
        if flow == -1:
            raise no_stream(number, line, name)
        yield flow

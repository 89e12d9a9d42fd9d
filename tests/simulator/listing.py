"""The listing of a call file: its bytes in, its lines out."""

from simulator.burst import burst
from simulator.calls import answer
from simulator.link import Link
from simulator.plan import read_plan
from simulator.records import DOMELINK, read_record, split

SHORTEST, LONGEST = 12, 76      # stated lengths of a plan that are looked at


def line(letter, number):
    return letter if number is None else "%s %s" % (letter, number)


def lines_of(link, call):
    """The lines of a call, each as the link comes to it: one, but for a burst,
    which has one a record."""
    if call and call[0] == "burst":
        for pair in burst(link, *call[1:]):
            yield "B %d %d" % pair
    else:
        yield line(*answer(link, call))


def split_file(data):
    """The plan's bytes and the rest, or None (rule 13.2)."""
    if len(data) < 2:
        return None
    length = data[0] + 256 * data[1]
    if not SHORTEST <= length <= LONGEST or len(data) < length:
        return None
    return data[:length], data[length:]


def steps(data, kinds=DOMELINK):
    """Each line of the listing of a call file, and the link after it, or None
    where there is none; `kinds` is a program's table of records."""
    parts = split_file(data)
    refusal, plan = read_plan(parts[0]) if parts else (1, None)
    link = None if refusal else Link(plan)
    yield line("P", refusal), link
    if refusal:
        return
    for record in split(parts[1], kinds):
        for text in lines_of(link, read_record(record, kinds)):
            yield text, link


def simulate(data, kinds=DOMELINK):
    """The listing of a call file, as lines."""
    return [text for text, _ in steps(data, kinds)]

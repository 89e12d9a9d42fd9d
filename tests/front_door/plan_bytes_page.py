"""docs/C.md says what each byte of its plan is: they are those of the examples,
and of the plan that ./plan makes by the page's command."""

import re

import call_bytes
from front_door.pages import page, table

PLAN = call_bytes.plan(4, 2, 4, [(2, 2, 1, 9), (2, 2, 2, 9)])
BYTES = re.compile(r"(?:\d+, ){19}\d+")


def rows():
    return table(page("docs/C.md"), "Bytes")


def numbers(text):
    return [int(number) for number in re.findall(r"\d+", text)]


def each_byte():
    """In order, none twice, each with its value."""
    places, values = [], []
    for where, here, _ in rows():
        first, *last = numbers(where)
        places += range(first, (last or [first])[0] + 1)
        values += numbers(here)
    return (places != list(range(20)) or bytes(values) != PLAN) and (
        "%s: %s" % (places, values))


def as_in_the_examples():
    """In C, Rust and Python; blanks set flows apart in C."""
    found = [bytes(numbers(text)) for text in BYTES.findall(
        " ".join(page("docs/C.md").split()))]
    return (len(found) < 4 or set(found) != {PLAN}) and "%s" % found


def the_command():
    return "./plan 4 2 4  2 2 1 9  2 2 2 9 --out" not in page(
        "docs/C.md") and "another command"


def tests(programs):
    for test in (each_byte, as_in_the_examples, the_command):
        yield "docs: the plan's bytes, " + test.__name__.replace("_", " "), \
            test

"""Fresh on buffers of several lengths: the result and the bytes that it has to
leave, and what came of it.
"""

from functools import partial

from edges import plan_limits
from images import by_hand
from images.call_files import LONGEST, OLD
from images.host import Script, run
from images.results import POWER, said
from simulator.image import image_of
from simulator.link import Link
from simulator.plan import read_plan


def right_fresh(plan, buffer):
    """The plan's refusal first, then 21, else the image of a fresh link:
    rule 12.5."""
    refusal, read = read_plan(plan)
    if refusal:
        return refusal * POWER, buffer
    image = image_of(Link(read))
    if len(buffer) < len(image):
        return 21 * POWER, buffer
    return 0, image + buffer[len(image):]


def fresh(command, plan, lengths):
    """What is wrong with fresh on buffers of these lengths, or None."""
    script = Script()
    buffers = [OLD * length for length in lengths]
    for buffer in buffers:
        script.buffer(buffer)
        script.fresh(plan)
        script.get()
    answers, wrong = run(command, script)
    for buffer, result, left in zip(buffers, answers[::2], answers[1::2]):
        right, kept = right_fresh(plan, buffer)
        if (result, left) != (right, kept):
            return "%d bytes: %s, not %s, or other bytes" % (
                len(buffer), said(result), said(right))
    return wrong


# ---- by hand

def as_by_hand(plan, length, refusal):
    """The result is the one worked out by hand, with no library."""
    right = right_fresh(plan, OLD * length)[0]
    return right != refusal * POWER and "%s is given" % said(right)


def self_tests():
    for name, *given in by_hand.FRESH_CALLS:
        yield "image: fresh, " + name, partial(as_by_hand, *given)


# ---- plans of all sorts

def plans():
    """Each as a part on its own."""
    yield from plan_limits.LENGTHS
    for table in (plan_limits.COUNTS, plan_limits.FRAMES, plan_limits.ENTRIES,
                  plan_limits.PAIRS, plan_limits.SUMS, plan_limits.ORDER):
        for name, data, _ in table:
            yield name, data
    yield "one byte too many", plan_limits.GOOD + b"\0"
    yield "the largest image", by_hand.LARGEST_PLAN


def lengths_for(plan):
    """Lengths of buffers, about that of the image."""
    refusal, read = read_plan(plan)
    exact = 98 if refusal else len(image_of(Link(read)))
    return sorted({0, 1, 16, 17, 18, exact - 1, exact, exact + 1, LONGEST})


def tests(command):
    for name, plan, length, _ in by_hand.FRESH_CALLS:
        yield ("image: fresh, " + name,
               partial(fresh, command, plan, [length]))
    for name, plan in plans():
        yield ("image: fresh from a plan, " + name,
               partial(fresh, command, plan, lengths_for(plan)))

"""What the simulator's images and the test of acceptance have to be, with no
library: a name for each test, and the test, which gives what went wrong or
None.
"""

from collections import Counter
from functools import partial

from generator.dice import Dice
from generator.seeds import BURSTS, DEPARTURES, LENDS, NUMBERS, RESETS
from images import (
    by_hand, fresh_calls, numbers_by_hand, old_versions, random_lends,
    random_numbers, random_resets, resets_by_hand)
from images.acceptance import broken, refusal_of
from images.call_files import images_after
from images.on_images import Trial
from images.random_calls import some_call
from images.random_images import any_image, taken_image
from images.results import POWER, said
from simulator.calls import answer
from simulator.image import image_of, link_of
from simulator.listing import steps
from simulator.records import ALLCALLS

CONDITIONS = sorted({condition for condition, _, _ in by_hand.BROKEN})
FILES = 6               # of each sort, looked at after each call
FEW = 1500              # bytes of each
TAKEN_IMAGES = 60       # by chance, with calls on each
IMAGES = 1000           # by chance, of which half are not taken
QUIET_IMAGES = 300      # by chance, and nearly quiet ones
FREE_IMAGES = 300       # by chance, whose current slot can be lent
NUMBERED_IMAGES = 600   # by chance, with a request on each


def after_calls(edge, image):
    """The simulator's image is the one worked out by hand."""
    lines, links = zip(*steps(edge.data, ALLCALLS))
    found = image_of(links[-1])
    return (list(lines) != edge.lines and "the simulator gives %r" % [lines]
            or found != image and "it is %s" % found.hex())


def taken(image):
    """And it is the same when it is read and written; bytes past it don't
    count."""
    if refusal_of(image):
        return "it breaks %r" % broken(image)
    found = image_of(link_of(image))
    return found != image[:len(found)] and "read and written it differs"


def breaks(condition, image):
    """This condition and no other."""
    return (broken(image) != {condition} and "it breaks %r" % broken(image)
            or refused(22, image))


def refused(number, image):
    return refusal_of(image) != number and "%d is given" % refusal_of(image)


def reached(sort, seed):
    """Every image that calls lead to is taken."""
    data = sort.generate(seed)[:FEW]
    return next(("one breaks %r" % broken(image)
                 for image in images_after(data) if refusal_of(image)),
                None)


def kept(seed):
    """A taken image by chance, and what each of some calls makes of it."""
    dice = Dice(seed)
    image = taken_image(dice)
    link = link_of(image)
    for _ in range(20):
        if taken(image):
            return "image %d: %s" % (seed, taken(image))
        answer(link, some_call(dice, image))
        image = image_of(link)
    return None


def all_kept():
    return next(filter(None, map(kept, range(TAKEN_IMAGES))), None)


def each_broken():
    """Among images by chance, each condition is broken by one that breaks no
    other."""
    found = Counter()
    for seed in range(IMAGES):
        image = any_image(Dice(seed))
        found[refusal_of(image)] += 1
        if refusal_of(image) == 22 and len(broken(image)) == 1:
            found.update(broken(image))
    missing = [way for way in (0, 21, 22, *CONDITIONS) if not found[way]]
    return missing and "never: %r" % missing


def called(image, call, result, left):
    """The result and the bytes are those worked out by hand, and what is left
    is taken, as it was before."""
    found = Trial("", image, call).right()
    return (taken(image) or taken(left)
            or found[0] != result and "it gives %s" % said(found[0])
            or found[1] != left and "it leaves %s" % found[1].hex())


def each_reset():
    """Quiet images by chance and nearly quiet ones are taken, also after a
    reset, and resets of them meet everything."""
    found = set()
    for seed in range(QUIET_IMAGES):
        image = random_resets.some_image(Dice(seed))
        link = link_of(image)
        found |= random_resets.ways(image, answer(link, ("reset",))[0])
        wrong = taken(image) or taken(image_of(link))
        if wrong:
            return "image %d: %s" % (seed, wrong)
    missing = [way for way in random_resets.WAYS if way not in found]
    return missing and "never: %r" % missing


def lent(image, call):
    """The answer, and the flow to look from after it, are told from the
    image's bytes.  What went wrong or None, and what the lend met."""
    link = link_of(image)
    given = answer(link, call)
    after = image_of(link)
    first = int.from_bytes(after[16:18], "little")
    wrong = (taken(image) or taken(after)
             or given != random_lends.right_line(image, call[1])
             and "%s %s is given" % given
             or first != random_lends.next_field(image, *given)
             and "the flow to look from is %d" % first)
    return wrong, random_lends.ways(image, call[1], *given)


def each_lend():
    """Lends on images by chance meet everything."""
    found = set()
    for seed in range(FREE_IMAGES):
        wrong, ways = lent(*random_lends.some_lend(Dice(seed)))
        if wrong:
            return "image %d: %s" % (seed, wrong)
        found |= ways
    missing = [way for way in random_lends.WAYS if way not in found]
    return missing and "never: %r" % missing


def each_number():
    """Requests on images by chance meet everything."""
    found = set()
    for seed in range(NUMBERED_IMAGES):
        image, call = random_numbers.some_request(Dice(seed))
        link = link_of(image)
        given = answer(link, call)
        after = image_of(link)
        wrong = (taken(image) or taken(after)
                 or random_numbers.wrong(image, call, *given, after))
        if wrong:
            return "image %d: %s" % (seed, wrong)
        found.add(random_numbers.way(image, call, *given))
    missing = [way for way in random_numbers.WAYS if way not in found]
    return missing and "never: %r" % missing


def tests():
    for edge, image in (by_hand.AFTER_CALLS + resets_by_hand.AFTER_CALLS
                        + numbers_by_hand.AFTER_CALLS):
        yield edge.name, partial(after_calls, edge, image)
    for name, image in by_hand.TAKEN:
        yield "image: taken, " + name, partial(taken, image)
    for condition, name, image in by_hand.BROKEN:
        yield ("image: 22, %s: %s" % (condition, name),
               partial(breaks, condition, image))
    for number, images in (
            (21, by_hand.SHORT + old_versions.SHORT),
            (22, by_hand.LONG_ENOUGH + old_versions.LONG_ENOUGH)):
        for name, image in images:
            yield ("image: %d, %s" % (number, name),
                   partial(refused, number, image))
    for name, image, refusal, left in resets_by_hand.RESETS:
        yield "image: reset, " + name, partial(
            called, image, ("reset",), refusal * POWER, left)
    for name, *given in numbers_by_hand.CALLS:
        yield "image: number, " + name, partial(called, *given)
    yield from fresh_calls.self_tests()
    for sort in (LENDS, DEPARTURES, RESETS, NUMBERS, BURSTS):
        for seed in range(FILES):
            yield ("image: taken after each call, %s %d"
                   % (sort.name, seed), partial(reached, sort, seed))
    yield "image: calls leave taken images taken", all_kept
    yield "image: each condition is broken by chance, it alone", each_broken
    yield "image: resets of images by chance meet everything", each_reset
    yield "image: lends on images by chance meet everything", each_lend
    yield "image: requests on images by chance meet everything", each_number

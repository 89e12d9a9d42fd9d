"""What a library's exports have to do with images of all sorts: a name for
each test, and the test, which gives what went wrong or None.  Call files are
played elsewhere.
"""

from functools import partial
from itertools import islice

from edges import refusals_page
from generator.dice import Dice
from generator.seeds import BURSTS, LENDS, NUMBERS
from images import (
    by_hand, fresh_calls, numbers_by_hand, old_versions, plays, random_lends,
    random_numbers, random_resets, resets_by_hand)
from images.acceptance import refusal_of, tables_of
from images.call_files import buffer_of, difference, images_after, play
from images.on_images import Trial, troubles
from images.random_calls import some_call
from images.random_images import any_image
from images.results import POWER
from simulator.listing import simulate
from simulator.records import ALLCALLS

BATCH = 100             # images by chance in one run of the host
IN_TURN = 12            # files with lends in turn, looked at after each call
ROUND = 2               # files of each sort whose numbers go round, the same
WORD = 9 << 26          # flow 0 to node 9, as in the images by hand

# A call of each sort, and calls that another test would refuse.
CALLS = [
    ("credit", 0, 6), ("credit", 1, 1), ("tick",), ("reset",),
    ("lend", 1), ("lend", 2), ("lend", 3), ("lend", 0xFFFF), ("lend", 0),
    ("request", 0xFFFFFFFF), ("request", 0), ("credit", 99, 99),
]

# Numbers that have good ones in their low bytes.
WIDE = [("credit", 1 << 8, 1), ("credit", 1 << 16, 1), ("credit", 1 << 32, 1),
        ("credit", 1 << 63, 1), ("credit", 0, 1 + (1 << 8)),
        ("credit", 0, 1 + (1 << 16)), ("credit", 0, 1 + (1 << 32)),
        ("credit", 0, (1 << 64) - 1), ("credit", (1 << 64) - 1, 1)]


def words_on(image):
    """Requests with the numbers that an image expects, and with others."""
    due = [0, 0]
    if not refusal_of(image):
        due = [flow.number for flow in tables_of(image).flows] + [0]
    first, second = due[0] << 10, due[1] << 10 | 1 << 20
    return [("request", WORD | word) for word in (
        first, first | 7, second, first ^ 1 << 10, second ^ 1023 << 10)]


def calls_on(image):
    return words_on(image) + CALLS


def first(troubles):
    return next(filter(None, troubles), None)


def after_calls(command, edge, image):
    """The bytes are those worked out by hand: rule 12.4."""
    played = play(command, edge.data, len(image))
    return (played.wrong
            or played.lines != edge.lines and "gives %r" % played.lines
            or played.buffers != [buffer_of(image, len(image))]
            and "leaves %s" % played.buffers[-1].hex())


def on_page(command, number, image, last):
    """A buffer of docs/REFUSALS.md gives the refusal beside it."""
    trial = Trial("refusal %d" % number, image, ("tick",))
    return (first(troubles(command, [trial]))
            or trial.right()[0] != number * POWER and "not refused so"
            or last != "R %d" % number and "the page says %s" % last)


# ---- images by hand and by chance

def images_by_hand():
    """A name and the image."""
    for name, image in by_hand.TAKEN:
        yield "taken, " + name, image
    for condition, name, image in by_hand.BROKEN:
        yield "22, %s: %s" % (condition, name), image
    for name, image in by_hand.SHORT + old_versions.SHORT:
        yield "21, " + name, image
    for name, image in by_hand.LONG_ENOUGH + old_versions.LONG_ENOUGH:
        yield "22, " + name, image
    for name, image, refusal, left in resets_by_hand.RESETS:
        yield "to be reset, " + name, image
        if left != image:
            yield "after a reset, " + name, left


def every_call(command, name, image):
    return first(troubles(command, [Trial(name, image, call)
                                    for call in calls_on(image) + WIDE]))


def one_call(command, image, call, result, left):
    """The result and the bytes are those worked out by hand."""
    trial = Trial("the image", image, call)
    return (first(troubles(command, [trial]))
            or trial.right() != (result, left) and "not as by hand")


def random_trial(seed):
    dice = Dice(seed)
    image = any_image(dice)
    return Trial("image %d" % seed, image, some_call(dice, image))


def random_reset(seed):
    """Of an image that is quiet, or nearly so."""
    return Trial("image %d" % seed, random_resets.some_image(Dice(seed)),
                 ("reset",))


def random_lend(seed):
    """Where the current slot is free."""
    return Trial("image %d" % seed, *random_lends.some_lend(Dice(seed)))


def random_number(seed):
    """A request with the expected number, or with another."""
    return Trial("image %d" % seed, *random_numbers.some_request(Dice(seed)))


def by_chance(command, trial, seeds):
    return first(troubles(command, [trial(seed) for seed in seeds]))


def played(command, seeds):
    """Records, against single calls in the simulator, one after another: rules
    12.8 and 12.10."""
    return first(plays.troubles(command, [plays.some_play(seed) for seed in seeds]))


def all_trials(command, count):
    """One run of the host: calls on all images by hand, and on some by
    chance."""
    trials = [Trial(name, image, call) for name, image in images_by_hand()
              for call in calls_on(image)]
    trials += [trial(seed)
               for trial in (random_trial, random_reset, random_lend,
                             random_number)
               for seed in range(count)]
    return first(troubles(command, trials))


# ---- long runs: of lends over changing masks, and of numbers that go round

LONG_RUNS = (
    ("lends", LENDS, ("in turn", "sixteen in turn"), IN_TURN),
    ("numbers", NUMBERS, ("round",), ROUND),
    ("numbers of two flows", NUMBERS, ("two round",), 1),
    ("bursts", BURSTS, ("round",), ROUND),
)


def seeds_of(sort, kinds, seed):
    """Seeds of files of these kinds."""
    while True:
        if sort.kind_of(seed) in kinds:
            yield seed
        seed += 1


def each_image(command, sort, seed):
    """The answers of a file, and the image after each of its calls, which gets
    the one that the call before left: rule 12.7."""
    data = sort.generate(seed)
    images = images_after(data)
    length = len(images[-1])
    played = play(command, data, length, each=True)
    return (played.wrong or difference(played, images, length)
            or len(played.buffers) != len(images) and "%d images, not %d"
            % (len(played.buffers), len(images))
            or played.lines != simulate(data, ALLCALLS) and "other answers")


# ---- all of them

def tests(command, count, seed):
    """`count` of the images by chance."""
    for number, image, last in refusals_page.examples("image"):
        yield ("docs: refusal %d of an image" % number,
               partial(on_page, command, number, image, last))
    for edge, image in (by_hand.AFTER_CALLS + resets_by_hand.AFTER_CALLS
                        + numbers_by_hand.AFTER_CALLS):
        yield edge.name, partial(after_calls, command, edge, image)
    for name, image in images_by_hand():
        yield ("image: calls on one, " + name,
               partial(every_call, command, name, image))
    for name, *given in numbers_by_hand.CALLS:
        yield "image: number, " + name, partial(one_call, command, *given)
    yield from fresh_calls.tests(command)
    yield "image: play, by hand", partial(plays.by_hand, command)
    yield "image: play, no room", partial(plays.no_room, command)
    yield ("image: check of each by hand", partial(
        plays.checked, command, [image for _, image in images_by_hand()]))
    for start in range(seed, seed + count, BATCH):
        seeds = range(start, min(start + BATCH, seed + count))
        yield ("image: calls on images by chance, from %d on" % start,
               partial(by_chance, command, random_trial, seeds))
        yield ("image: resets of images by chance, from %d on" % start,
               partial(by_chance, command, random_reset, seeds))
        yield ("image: lends on images by chance, from %d on" % start,
               partial(by_chance, command, random_lend, seeds))
        yield ("image: requests on images by chance, from %d on" % start,
               partial(by_chance, command, random_number, seeds))
        yield ("image: plays on images by chance, from %d on" % start,
               partial(played, command, seeds))
        yield ("image: checks of images by chance, from %d on" % start,
               partial(plays.checked, command,
                       [any_image(Dice(each)) for each in seeds]))
    for name, sort, kinds, files in LONG_RUNS:
        for number in islice(seeds_of(sort, kinds, seed), files):
            yield ("image: after each call of %s, seed %d" % (name, number),
                   partial(each_image, command, sort, number))

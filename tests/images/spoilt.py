"""Small images spoilt in every place (rules 12.2 and 12.3): at each length
from 0 on, and with each byte changed in several ways, and calls and a check on
all of them; and a play spoilt so (rules 12.8 and 12.9), its records and the
room for its numbers too."""


from functools import partial

from generator.dice import Dice
from images import plays
from images.acceptance import refusal_of
from images.by_hand import TAKEN
from images.on_images import Trial, troubles
from images.random_calls import some_call
from images.random_images import taken_image

CALLS = (("request", 9 << 26), ("credit", 0, 6), ("tick",), ("lend", 3),
         ("reset",))
PAST = b"\x07\x00"
CHANGES = (1, 2, 16, 128, 255)          # bits that are turned round
IMAGES = 2                              # by chance, besides the one by hand
IN_WRAPPER = 100                        # plays by chance


def images():
    """A small one by hand, and small ones by chance."""
    yield TAKEN[0][1]
    seed = found = 0
    while found < IMAGES:
        seed += 1
        image = taken_image(Dice(seed))
        if len(image) < 120:
            found += 1
            yield image


def at_each_length(image):
    for length in range(len(image) + len(PAST) + 1):
        for call in CALLS:
            yield Trial("%d bytes" % length, (image + PAST)[:length], call)


def with_each_byte(image):
    dice = Dice(len(image))
    for at in range(len(image)):
        for bits in CHANGES:
            changed = bytearray(image)
            changed[at] ^= bits
            yield Trial("byte %d changed by %d" % (at, bits), changed,
                        some_call(dice, bytes(changed)))


# ---- a play: its image, its records and its numbers' room

RECORDS = b"".join(map(plays.record_of, (
    ("request", 9 << 26), ("credit", 0, 1), ("lend", 3), ("tick",),
    ("reset",), ("request", 9 << 26 | 1 << 20))))
NUMBERS = plays.OLD * 6 * plays.NUMBER


def plays_at_each_length():
    image = TAKEN[0][1]
    for length in range(len(image) + 2):
        yield plays.Play("an image of %d bytes" % length,
                         (image + PAST)[:length], RECORDS, NUMBERS)
    for length in range(len(RECORDS) + 1):
        yield plays.Play("%d bytes of records" % length, image,
                         RECORDS[:length], NUMBERS)
    for length in range(len(NUMBERS) + 1):
        yield plays.Play("room for %d bytes" % length, image, RECORDS,
                         NUMBERS[:length])


def plays_with_each_byte():
    """Each bit of the records turned round, and bytes of the image."""
    image = TAKEN[0][1]
    for at in range(8 * len(RECORDS)):
        changed = bytearray(RECORDS)
        changed[at // 8] ^= 1 << at % 8
        yield plays.Play("bit %d of the records" % at, image, bytes(changed),
                         NUMBERS)
    for at in range(len(image)):
        changed = bytearray(image)
        changed[at] ^= 1
        yield plays.Play("byte %d of the image" % at, changed, RECORDS,
                         NUMBERS)


def wrong_play(command, spoilt):
    return next(filter(None, plays.troubles(command, list(spoilt))), None)


def in_wrapper(command):
    """Plays by chance with room for their numbers, as a wrapper makes it, and
    those that are spoilt but for the room."""
    some = [plays.some_play(seed) for seed in range(IN_WRAPPER)]
    some += [*plays_with_each_byte(), *plays_at_each_length()]
    for play in some:
        play.out = plays.OLD * plays.NUMBER * len(
            plays.records_of(play.stream))
    return wrong_play(command, some)


# ---- all of them

def first_wrong(command, trials):
    return next(filter(None, troubles(command, list(trials))), None)


def wrong_check(command):
    """Of all buffers that calls are made on here."""
    return plays.checked(command, [
        trial.buffer for image in images()
        for trial in [*at_each_length(image), *with_each_byte(image)]])


def some_of_each():
    """Both taken and refused images have to come up among them."""
    refusals = {refusal_of(trial.buffer) for image in images()
                for trial in with_each_byte(image)}
    return refusals != {0, 21, 22} and "only %s" % sorted(refusals)


def tests(command):
    yield "image: spoilt ones, some taken and some not", some_of_each
    for place, image in enumerate(images()):
        yield ("image: spoilt one %d, at each length" % place,
               lambda image=image: first_wrong(command,
                                               at_each_length(image)))
        yield ("image: spoilt one %d, each byte changed" % place,
               lambda image=image: first_wrong(command,
                                               with_each_byte(image)))


    yield "image: spoilt ones, checked", partial(wrong_check, command)
    yield ("image: a spoilt play, at each length",
           lambda: wrong_play(command, plays_at_each_length()))
    yield ("image: a spoilt play, each byte changed",
           lambda: wrong_play(command, plays_with_each_byte()))


def some_trials(command):
    """For tools that watch memory."""
    image = next(images())
    return (first_wrong(command, [*at_each_length(image),
                                  *with_each_byte(image)])
            or wrong_check(command)
            or wrong_play(command, [*plays_at_each_length(),
                                    *plays_with_each_byte()]))

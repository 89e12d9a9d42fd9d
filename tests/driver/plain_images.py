"""The plain Rust library for images of docs/src, which the exports are measured
beside: the host for tests is built over it, and makes the same calls, each
against the second simulator."""

from functools import partial
from itertools import islice
from pathlib import Path

from driver.plain_rust import build as build_rust
from generator.dice import Dice
from images import export_tests, fresh_calls, plays, spoilt
from images.random_images import any_image

IMAGES = 400            # by chance, of each sort
PLAYS = 100
CHECKS = 400
FILES = 1               # of each sort, with the image after each call
OWN_TESTS = 6


def build(builder, host):
    """The host's path, and what went wrong or None."""
    library = str(Path(builder.folder) / "libimages.a")
    wrong = build_rust("images.rs", library, "-C", "panic=abort")
    if wrong:
        return None, wrong
    return builder.over(library).program("host over plain Rust", host)


def checks(command):
    """Of images by hand and by chance."""
    images = [image for _, image in export_tests.images_by_hand()]
    images += [any_image(Dice(seed)) for seed in range(CHECKS)]
    return plays.checked(command, images)


def fresh(command):
    return export_tests.first(
        test() for _, test in fresh_calls.tests(command))


def long_files(command):
    for _, family, kinds, _ in export_tests.LONG_RUNS:
        for seed in islice(export_tests.seeds_of(family, kinds, 1), FILES):
            wrong = export_tests.each_image(command, family, seed)
            if wrong:
                return "seed %d: %s" % (seed, wrong)
    return None


def tests(builder, host):
    """Names and tests."""
    path, wrong = build(builder, host)
    yield "plain Rust images: compiled", lambda: wrong
    if wrong:
        return
    command = [path]
    for name, test in (
            ("calls on images by hand and by chance",
             partial(export_tests.all_trials, command, IMAGES)),
            ("plays by hand, by chance and spoilt", partial(
                all_plays, command)),
            ("checks", partial(checks, command)),
            ("fresh", partial(fresh, command)),
            ("the image after each call", partial(long_files, command))):
        yield "plain Rust images: " + name, test


def all_plays(command):
    return (plays.by_hand(command) or plays.no_room(command)
            or export_tests.played(command, range(PLAYS))
            or spoilt.some_trials(command))

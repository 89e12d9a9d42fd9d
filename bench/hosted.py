"""Calls on an image in a host's bytes: the proved exports, and the plain Rust
library of docs/src, which makes every test too and stores what changes.  One
program in C is linked with each of them.  A play of 256 records a call is
beside the plain scheduler's time for the same calls on `&mut self`."""

import re
import subprocess

import programs
import single

KINDS = ("dense", "small", "ticks")
PLAY = "play"
MARK = 2.0
LIBRARY = programs.ROOT / "target/staticlib/libnazgolv.a"
SOURCES = programs.ROOT / "docs/src"
BESIDE = programs.ROOT / "player/nazgolv.c"     # has the header's version
LINE = re.compile(r"^(calls|play|check) ([0-9.]+) ns, (results .+)$",
                  re.MULTILINE)
ANY = re.compile(r"^any +([0-9.]+) ns", re.MULTILINE)
NAMES = ("hosted-proved", "hosted-plain")


def made(words, what):
    """Runs a compiler."""
    if subprocess.run([str(word) for word in words]).returncode != 0:
        programs.stop("%s is not compiled: nothing is measured" % what)


def build(folder):
    """Both libraries, and the program over each."""
    programs.need("cc")
    done = subprocess.run(["tools/build", "nazgolv"], cwd=programs.ROOT,
                          stdout=subprocess.DEVNULL, stderr=subprocess.DEVNULL)
    if done.returncode != 0:
        programs.stop("tools/build nazgolv failed: nothing is measured")
    plain = folder / "libimages.a"
    made([*programs.RUSTC, "-C", "panic=abort", SOURCES / "images.rs",
          "-o", plain], "docs/src/images.rs")
    for name, library in zip(NAMES, (LIBRARY, plain)):
        made(["cc", "-std=c99", "-O2", "-I", programs.ROOT / "include",
              SOURCES / "hosted.c", BESIDE, library, "-o", folder / name],
             "docs/src/hosted.c")


def figures(text):
    """Nanoseconds of each way, and what they come to."""
    found = LINE.findall(text)
    return ({way: float(each) for way, each, _ in found},
            [rest for _, _, rest in found])


def measure_kind(folder, kind, rounds):
    """The lowest figures of the two programs, started one after the other."""
    path = programs.make(folder, kind, single.CALLS)
    rows = [[figures(programs.played(folder / name, path).decode())
             for name in NAMES]
            for _ in programs.in_rounds("images, " + kind, rounds)]
    if any(results != rows[0][0][1] for row in rows for _, results in row):
        programs.stop("results or images differ")
    return [single.lowest([each for each, _ in column])
            for column in zip(*rows)]


def by_reference(folder, rounds):
    """Nanoseconds of a call of the dense file, by the plain scheduler."""
    path = programs.make(folder, "dense", single.CALLS)
    return min(float(ANY.search(programs.played(
        folder / "single", path).decode()).group(1))
        for _ in programs.in_rounds("the plain scheduler", rounds))


def measure(folder, rounds):
    """A key, and nanoseconds of the proved exports and of what is beside
    them."""
    build(folder)
    for kind in KINDS:
        ours, theirs = measure_kind(folder, kind, rounds)
        yield kind, ours["calls"], theirs["calls"]
        yield kind + ", check", ours["check"], theirs["check"]
        if kind == "dense":
            yield PLAY, ours["play"], by_reference(folder, rounds)


def show(folder, rounds):
    for key, ours, theirs in measure(folder, rounds):
        beside = "by &mut   " if key == PLAY else "plain Rust"
        mark = "" if key.endswith("check") else "   mark %.2f, %s" % (
            MARK, "met" if round(ours / theirs, 2) <= MARK else "not met")
        print("image %-13s proved %8.1f ns   %s %8.1f ns   ratio %6.2f%s"
              % (key, ours, beside, theirs, ours / theirs, mark), flush=True)

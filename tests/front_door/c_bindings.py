"""The wrappers for Rust and Python: the same calls on images as through C,
beside the second simulator; their examples; and what each has of its own."""

import os
import shutil
import sys
from functools import partial
from itertools import islice

from driver.plain_rust import trouble as rust_trouble
from front_door.c_pages import EXAMPLES, printed
from front_door.command import ROOT, start, trouble
from images import export_tests, spoilt, views

IMAGES = 60                     # by chance, of each sort
HOSTS = {"Rust": ROOT / "tests/images/host.rs",
         "Python": ROOT / "tests/images/python_host.py"}
LOOKS = ("current", "number", "held")
OWN = """\
from nazgolv import IMAGES, Link, Refused, version, word
plan = bytes([20, 0, 2, 0, 12, 0, 4, 0, 2, 0, 4, 0, 2, 2, 1, 9, 2, 2, 2, 9])
link = Link.fresh(plan)
first = link.image
for call, numbers in (
        (link.request, [1 << 32]), (link.request, [-1]),
        (link.lend, [1 << 16]), (link.credit, [0, 1 << 64]),
        (link.credit, [-1, 0]), (word, [64, 0, 0, 0]), (word, [0, 64, 0, 0]),
        (word, [0, 0, 1024, 0]), (word, [0, 0, 0, 1024])):
    try:
        call(*numbers)
        print("taken:", call, numbers)
    except ValueError:
        pass
for numbers in ([2], [63], [1 << 63]):
    try:
        link.word(*numbers)
        print("a word of no flow:", numbers)
    except Refused as refused:
        assert refused.number == 8
for image in (b"", first[:-1], bytes(98)):
    try:
        Link(image)
        print("taken:", image)
    except Refused as refused:
        assert refused.number == (22 if len(image) == 98 else 21)
assert link.image == first and Link(first).image == first
assert version().startswith("%d." % IMAGES)
assert word(9, 1, 2, 3) == 0x24100803
"""


def no_other_library(installed):
    """Another library is turned away in words."""
    program = "import sys; sys.path.insert(0, %r)\nimport nazgolv" % str(
        EXAMPLES["Python"].parent)
    for library in ("/nowhere/libnazgolv.so.4", "libc.so.6"):
        ended = start([sys.executable, "-B", "-c", program], env=dict(
            os.environ, NAZGOLV_LIBRARY=library))
        if "%s is no library of Nazgolv with images of version 4" % (
                library) not in ended.errors:
            return ended.errors or "it is taken"
    return None


def copied_anywhere(installed):
    """Right below the root too."""
    program = "exec(open(%r).read(), {'__name__': 'nazgolv', '__file__': %r})"
    source = EXAMPLES["Python"].parent / "nazgolv.py"
    return trouble(start(
        [sys.executable, "-B", "-c", program % (str(source), "/nazgolv.py")],
        env=environment(installed)), output=b"")


def own_of_python(installed):
    """Numbers that are too wide, and bytes that are no image."""
    program = "import sys; sys.path.insert(0, %r)\n%s" % (
        str(EXAMPLES["Python"].parent), OWN)
    return trouble(start([sys.executable, "-B", "-c", program],
                         env=environment(installed)), output=b"")


def environment(installed):
    return dict(os.environ, NAZGOLV_LIBRARY=str(installed.shared))


class Wrapper:
    """A language: how its programs are started."""

    def __init__(self, name, installed, folder):
        self.name = name
        self.installed = installed
        self.folder = folder

    def command(self, source):
        """The words that start a program, and what went wrong or None."""
        if self.name == "Python":
            return ["env", "NAZGOLV_LIBRARY=%s" % self.installed.shared,
                    sys.executable, "-B", str(source)], None
        program = "%s/%s in Rust" % (self.folder, source.stem)
        return [program], rust_trouble(
            "rustc", "--edition", "2021", "-O", "-D", "warnings", "-L",
            str(self.installed.prefix / "lib"), str(source), "-o", program)

    def example(self):
        command, wrong = self.command(EXAMPLES[self.name])
        return wrong or trouble(start(command), output=printed())

    def calls(self):
        """All that is tried through C but for buffers that are too short for
        fresh, which a wrapper makes itself."""
        command, wrong = self.command(HOSTS[self.name])
        return (wrong or export_tests.all_trials(command, IMAGES)
                or spoilt.wrong_check(command) or spoilt.in_wrapper(command)
                or self.looks(command) or self.long_runs(command))

    def looks(self, command):
        images = views.taken_by_hand()
        return views.in_taken(command, images, LOOKS) or views.in_taken(
            command, images, ("owner",), outside=False)

    def long_runs(self, command):
        """A file of each sort, with the image after each call."""
        for _, family, kinds, _ in export_tests.LONG_RUNS[:1]:
            for seed in islice(export_tests.seeds_of(family, kinds, 1), 1):
                wrong = export_tests.each_image(command, family, seed)
                if wrong:
                    return "seed %d: %s" % (seed, wrong)
        return None


def says_what_is_left_out():
    if not shutil.which("rustc"):
        print("rustc is not on this machine: the wrapper for Rust is not "
              "tried")


def tests(installed, folder):
    for name in HOSTS:
        if name == "Rust" and not shutil.which("rustc"):
            continue
        wrapper = Wrapper(name, installed, folder)
        yield "C: the example in " + name, wrapper.example
        yield "C: calls on images in " + name, wrapper.calls
    yield ("C: Python and numbers that are too wide",
           partial(own_of_python, installed))
    yield ("C: Python and another library",
           partial(no_other_library, installed))
    yield ("C: installed, Python wherever it is copied",
           partial(copied_anywhere, installed))

"""The C side: the header, the player, and a host for tests, built over a
library of the exports, and the library as it is installed, with its wrappers
for Rust and Python.  Where a tool that watches memory is there, the player and
the host are run under it too.
"""

import shutil
import subprocess
from functools import partial
from itertools import chain
from pathlib import Path

from driver import plain_images
from driver.formats import ALLCALLS
from driver.image_suite import ImageSuite
from driver.left_out import leave_out
from driver.plain_rust import has_rustc, trouble
from driver.suite import Suite, first_difference
from edges import bursts, lends, numbers, resets, turns
from edges.all_edges import EDGES
from front_door import (
    c_ahead, c_bindings, c_install, c_library, c_pages, c_player)
from front_door.c_tree import Installed
from images import export_tests, spoilt, stack_use, views

ROOT = Path(__file__).resolve().parents[2]
HEADER = ROOT / "include"
PLAYER = ROOT / "player/player.c"
BESIDE = [str(ROOT / "player" / name) for name in ("nazgolv.c", "why.c")]
IMAGES = ROOT / "tests/images"
HOST = IMAGES / "host.c"
STRICT = ["-Wall", "-Wextra", "-pedantic", "-Werror", "-I", str(HEADER)]
C99 = ["-std=c99", "-O2"]
CHECKED = ["-g", "-fsanitize=address,undefined", "-fno-sanitize-recover=all"]
VALGRIND = ["valgrind", "-q", "--error-exitcode=9", "--leak-check=full"]
IMAGES_EACH = 10            # images by chance for each seed
WATCHED_IMAGES = 100        # of them under a tool that watches
WATCHED_FILES = 3           # edges of each sort, through the player
WATCHED_TESTS = 2           # under each tool that watches
PLUS = ("c++98", "c++17")   # standards of the header
OWN_TESTS = 795             # besides files of calls, with 400 of each sort


def found(*names):
    """The first of these commands that is there, or None."""
    return next(filter(None, map(shutil.which, names)), None)


class Builder:
    def __init__(self, compiler, library, folder):
        self.compiler = compiler
        self.library = str(library)
        self.folder = Path(folder)

    def over(self, library):
        """The same over another library."""
        return Builder(self.compiler, library, self.folder)

    def alone(self, name, source, *options, compiler=None):
        """What is wrong with a source that is compiled alone, or None."""
        return trouble(compiler or self.compiler, *STRICT, *options, "-c",
                       str(source), "-o", str(self.folder / (name + ".o")))

    def program(self, name, source, *options):
        """The path of a program, and what went wrong or None."""
        path = str(self.folder / name)
        return path, trouble(self.compiler, *C99, *STRICT, *options,
                             str(source), *BESIDE, self.library, "-o", path)

    def of_text(self, name, text):
        """The same of a source that stands on a page."""
        source = self.folder / (name + ".c")
        source.write_text(text)
        return self.program(name, source)

    def sanitises(self):
        """Whether its programs can have the address sanitiser."""
        source = self.folder / "empty.c"
        source.write_text("int main(void)\n{\n    return 0;\n}\n")
        path, wrong = self.program("empty", source, *CHECKED)
        return not wrong and not trouble(path)


# ---- the header

def header_tests(builder):
    sizes = IMAGES / "sizes.c"
    yield ("C: the header as C99",
           partial(builder.alone, "c99", sizes, "-std=c99"))
    plus = found("c++", "g++", "clang++")
    if not plus:
        leave_out("c++", "the header in C++", len(PLUS))
    for standard in PLUS if plus else ():
        yield ("C: the header as " + standard, partial(
            builder.alone, standard, sizes, "-x", "c++", "-std=" + standard,
            "-Wno-long-long", compiler=plus))
    yield "C: the stack of each call", partial(stack, builder)
    yield "C: refused, and nothing stored", partial(read_only, builder)


def stack(builder):
    """It is what docs/PROVED.md and the header have."""
    path, wrong = builder.program("stack", stack_use.SOURCE, "-pthread")
    return wrong or stack_use.wrong_figures(path)


def read_only(builder):
    """An image that can't be written is asked: rule 12.4."""
    path, wrong = builder.program("read only", IMAGES / "read_only.c")
    return wrong or trouble(path)


# ---- under a tool that watches memory

def plays(command):
    """What is wrong with the player on some edges, or None."""
    for edge in some_edges():
        done = subprocess.run(command, input=edge.data, capture_output=True)
        right = "".join(line + "\n" for line in edge.lines).encode()
        wrong = first_difference(right, done.stdout) or (
            (done.returncode or done.stderr) and "status %d: %s" % (
                done.returncode, done.stderr[-300:].decode("latin-1")))
        if wrong:
            return "%s: %s" % (edge.name, wrong)
    return None


def some_edges():
    """Edges here and there."""
    for edges in (EDGES, lends.EDGES, turns.EDGES, resets.EDGES,
                  bursts.EDGES, numbers.ALLCALLS_EDGES):
        yield from edges[::len(edges) // WATCHED_FILES]


class Watcher:
    def __init__(self, name, command, options):
        self.name = name
        self.command = command      # that a program is started by
        self.options = options      # that it is compiled with

    def player(self, builder):
        path, wrong = builder.program("player under " + self.name, PLAYER,
                                      *self.options)
        return wrong or plays([*self.command, path]) or next(filter(None, (
            c_ahead.differs([*self.command, path], edge.data)
            for edge in some_edges())), None)

    def host(self, builder):
        """Without guards, so that a buffer ends where its memory does."""
        path, wrong = builder.program("host under " + self.name, HOST,
                                      "-DGUARD=0", *self.options)
        command = [*self.command, path]
        return (wrong or export_tests.all_trials(command, WATCHED_IMAGES)
                or views.all_looks(command) or spoilt.some_trials(command))


def watchers(builder):
    """Those that are there; what is not is said."""
    if found("valgrind"):
        yield Watcher("valgrind", VALGRIND, ["-g"])
    else:
        leave_out("valgrind", "exports and player under it", WATCHED_TESTS)
    if builder.sanitises():
        yield Watcher("the address sanitiser", [], CHECKED)
    else:
        leave_out("sanitiser", "exports and player under it", WATCHED_TESTS)


def watched_tests(builder):
    for watcher in watchers(builder):
        yield ("C: the exports under " + watcher.name,
               partial(watcher.host, builder))
        yield ("C: the player under " + watcher.name,
               partial(watcher.player, builder))


# ---- all of it

class CSide:
    """What is played where there is a C compiler: tests of its own, the
    player, and the exports."""

    def __init__(self, compiler, library, folder):
        self.builder = Builder(compiler, library, folder)
        self.own = Suite("C side")
        self.player = Suite("player", form=ALLCALLS)
        self.exports = ImageSuite("exports", None)
        self.suites = [self.own, self.player, self.exports]

    def build(self, suite, source):
        """The suite's program, or a test that failed."""
        path, wrong = self.builder.program(suite.name, source)
        self.own.test("C: %s compiled" % source.name, wrong)
        suite.command = None if wrong else [path]

    def tests(self, count, seed):
        """Names and tests, which need no file of calls."""
        self.build(self.player, PLAYER)
        self.build(self.exports, HOST)
        installed = Installed(self.builder.folder, self.builder.library)
        tests = [watched_tests(self.builder), header_tests(self.builder),
                 c_player.build_tests(installed),
                 c_pages.tests(self.builder.of_text)]
        if not installed.wrong:
            c_install.says_what_is_left_out()
            c_bindings.says_what_is_left_out()
            tests += [c_library.tests(installed),
                      c_install.tests(installed, self.builder.library),
                      c_bindings.tests(installed, self.builder.folder)]
        if has_rustc():
            tests.append(plain_images.tests(self.builder, HOST))
        else:
            leave_out("rustc", "images in plain Rust", plain_images.OWN_TESTS)
        if self.player.command:
            tests.append(c_player.tests(*self.player.command))
            tests.append(c_ahead.tests(*self.player.command))
        if self.exports.command:
            tests.append(export_tests.tests(
                self.exports.command, IMAGES_EACH * count, seed))
            tests.append(views.tests(self.exports.command))
            tests.append(spoilt.tests(self.exports.command))
        return chain.from_iterable(tests)


def c_side(library, folder):
    """The C side, or None where there is no C compiler, which is said."""
    compiler = found("cc", "gcc", "clang")
    if compiler:
        return CSide(compiler, library, folder)
    leave_out("cc", "the C side", OWN_TESTS, ("allcalls", "allcalls"))
    return None

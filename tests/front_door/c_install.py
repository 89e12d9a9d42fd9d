"""The library for C as it is shipped: what player/build --install puts where,
and that a host is compiled and linked by what pkg-config says of it."""

import os
import re
import shutil
import tempfile
from functools import partial
from pathlib import Path

from front_door.c_pages import EXAMPLES, printed
from front_door.c_tree import HANDS_OUT, CTree
from front_door.command import start, trouble
from front_door.elf import Elf
from front_door.man_pages import plain
from front_door.pages import page

EXAMPLE = EXAMPLES["C"]
STRICT = ["-Wall", "-Wextra", "-pedantic", "-Werror", "-Wconversion",
          "-Wshadow", "-Wcast-qual", "-Wwrite-strings"]
STANDARDS = (("c99", ("gcc", "clang"), []), ("c11", ("gcc", "clang"), []),
             ("c++17", ("g++", "clang++"), ["-x", "c++"]))
FUNCTION = re.compile(r"^\w[\w ]*[ *](nazgolv_\w+)\(", re.MULTILINE)
NOT_INSTALLED, WRONG_WORDS = 3, 2
FILES = {"include/nazgolv.h", "lib/libnazgolv.a", "lib/libnazgolv.so",
         "lib/libnazgolv.so.4", "lib/pkgconfig/nazgolv.pc"}


def version():
    return page("VERSION").strip()


def functions():
    """The names that the header declares, but for the one with a version."""
    return set(FUNCTION.findall(page("include/nazgolv.h")))


# ---- what pkg-config says

def words_by_hand(path):
    """The options of a .pc file, read here."""
    known, options = {}, []
    for line in path.read_text().splitlines():
        name = line.partition("=")[0]
        line = re.sub(r"\$\{(\w+)\}", lambda name: known[name[1]], line)
        if re.fullmatch(r"\w+", name):
            known[name] = line.partition("=")[2]
        elif line.startswith(("Cflags: ", "Libs: ")):
            options += line.partition(": ")[2].split()
    return [option.replace('"', "") for option in options]


def words_of(folder):
    """What pkg-config gives of the page in a folder; where it isn't there,
    what the page has."""
    if not shutil.which("pkg-config"):
        return words_by_hand(folder / "nazgolv.pc"), None
    ended = start(["pkg-config", "--cflags", "--libs", "nazgolv"],
                  env=dict(os.environ, PKG_CONFIG_PATH=str(folder)))
    return ended.output.decode().split(), trouble(ended)


def says_what_is_left_out():
    """Lines on what is not on this machine."""
    if not shutil.which("pkg-config"):
        print("pkg-config is not on this machine: nazgolv.pc is read as text")
    for command in sorted({name for _, names, _ in STANDARDS
                           for name in names}):
        if not shutil.which(command):
            print("%s is not on this machine: nothing is compiled by it"
                  % command)


# ---- a host over what is installed

def compiled(words, program, *options):
    return trouble(start([*words, "-O2", *STRICT, *options, "-o", program]))


def by_pkg_config(installed, compiler, standard, more):
    """The example, compiled and linked as the pages say, and what it says."""
    options, wrong = words_of(installed.prefix / "lib/pkgconfig")
    with tempfile.TemporaryDirectory() as folder:
        program = Path(folder) / "example"
        return wrong or compiled(
            [compiler, "-std=" + standard, *more, EXAMPLE, *(
                ["-x", "none"] if more else [])], program, *options) or (
            trouble(start([program], env=installed.library_path),
                    output=printed()))


def with_the_archive(installed):
    """No shared library is looked for; its stack can't be executed."""
    with tempfile.TemporaryDirectory() as folder:
        program = Path(folder) / "example"
        return compiled(["cc", "-std=c99", EXAMPLE], program,
                        "-I%s/include" % installed.prefix,
                        installed.archive) or (
            trouble(start([program]), output=printed())) or (
            Elf(program).executable_stack() and "its stack can be executed")


def not_installed_too(installed):
    """The page in target/c leads to the tree."""
    built = installed.tree.root / "target/c"
    options, wrong = words_of(built)
    with tempfile.TemporaryDirectory() as folder:
        program = Path(folder) / "example"
        return wrong or compiled(["cc", "-std=c99", EXAMPLE], program,
                                 *options) or trouble(
            start([program], env=dict(os.environ,
                                      LD_LIBRARY_PATH=str(built))),
            output=printed())


def another_header(installed):
    """With another first number a host isn't linked, by either library."""
    with tempfile.TemporaryDirectory() as folder:
        text = page("include/nazgolv.h")
        other = text.replace("VERSION_MAJOR 4", "VERSION_MAJOR 5")
        (Path(folder) / "nazgolv.h").write_text(other)
        for library in (installed.archive, installed.shared):
            ended = start(["cc", "-std=c99", "-I", folder, EXAMPLE, library,
                           "-o", Path(folder) / "example"])
            if not ended.status or "nazgolv_images_5" not in ended.errors:
                return "%s: status %d, %s" % (library.name, ended.status,
                                              ended.errors[:200])
    return text == other and "the header has no such number"


# ---- what is there

def shared_library(installed):
    library = Elf(installed.shared)
    exports = functions() | {"nazgolv_images_4", "NAZGOLV_4"}
    found = library.exports() | {"NAZGOLV_4"}
    return (library.soname() != "libnazgolv.so.4"
            and "its name is %s" % library.soname()
            or library.executable_stack() and "its stack can be executed"
            or found != exports and "it exports %s" % sorted(found ^ exports))


def files_of(prefix):
    return {str(path.relative_to(prefix)) for path in prefix.rglob("*")
            if not path.is_dir()}


def files(installed):
    """The library, the header and a page for each function; no others."""
    wanted = FILES | {"lib/libnazgolv.so." + version()} | {
        "share/man/man3/%s.3" % name for name in functions() | {"nazgolv"}}
    found = files_of(installed.prefix)
    return found != wanted and "%s" % sorted(found ^ wanted)


def links(installed):
    library = installed.prefix / "lib"
    found = [os.readlink(library / name)
             for name in ("libnazgolv.so", "libnazgolv.so.4")]
    return found != ["libnazgolv.so.4", "libnazgolv.so." + version()] and (
        "%s" % found)


def manual(installed):
    """Each page is one, or leads to one that has its name and synopsis."""
    folder = installed.prefix / "share/man"
    for name in functions():
        path = folder / ("man3/%s.3" % name)
        if not path.exists():
            return "%s has no page" % name
        text = path.read_text()
        if text.startswith(".so "):
            text = (folder / text[4:].strip()).read_text()
        names, synopsis = (plain(text).split(".SH %s\n" % title)[1].split(
            "\n.SH ")[0] for title in ("NAME", "SYNOPSIS"))
        if name not in re.split(r"[, ]+", names) or name + "(" not in synopsis:
            return "%s: %s" % (name, names)
    return None


def declarations(installed):
    """A synopsis has the header's words."""
    header = " ".join(page("include/nazgolv.h").split())
    for path in sorted((installed.prefix / "share/man/man3").iterdir()):
        text = plain(path.read_text()).partition(".SH SYNOPSIS\n")[2]
        lines = re.findall(r'^\.B "?([^"\n]*)', text.partition(".fi")[0],
                           re.MULTILINE)
        for words in re.findall(r"\w[^;>]*nazgolv_\w+\([^;]*;",
                                " ".join(lines)):
            if " ".join(words.split()) not in header:
                return "%s: %s" % (path.name, words)
    return None


# ---- how it is installed

def with_destdir(library):
    """It is put in front of the files, and the page knows nothing of it."""
    with tempfile.TemporaryDirectory() as folder:
        tree = CTree(Path(folder) / "tree", HANDS_OUT % library)
        wrong = trouble(tree.build("--install", "/opt/dome hall",
                                   DESTDIR=folder + "/stage"))
        prefix = Path(folder) / "stage/opt/dome hall"
        text = (prefix / "lib/pkgconfig/nazgolv.pc").read_text()
        return wrong or (folder in text and text) or (
            not text.startswith("prefix=/opt/dome hall\n") and text) or (
            not FILES < files_of(prefix) and "files are missing")


def again_and_refused(installed, library):
    """Over what is there; and where a folder is in the way, what was there
    stays and status 3 says which file is not written."""
    with tempfile.TemporaryDirectory() as folder:
        tree = CTree(Path(folder) / "tree", HANDS_OUT % library)
        prefix = Path(folder) / "prefix"
        shutil.copytree(installed.prefix, prefix, symlinks=True)
        header = prefix / "include/nazgolv.h"
        header.write_text("old")
        wrong = trouble(tree.build("--install", prefix)) or (
            header.read_text() == "old" and "the header is the old one")
        (prefix / "include").rename(prefix / "was")
        (prefix / "include").write_text("in the way")
        ended = tree.build("--install", prefix)
        return wrong or ended.status != NOT_INSTALLED and "status %d" % (
            ended.status) or "include/nazgolv.h' can't be written" not in (
            ended.errors) and ended.errors or (
            (prefix / "include").read_text() != "in the way" and "it is gone")


def wrong_words(installed):
    for words, says in ((["--install"], "--install takes one word"),
                        (["--install", "a", "b"], "--install takes one word"),
                        (["--install", "usr"], "has to begin with /"),
                        (["--install", ""], "has to begin with /"),
                        (["build"], "'build' is no word"), ([""], "empty")):
        wrong = trouble(installed.tree.build(*words), WRONG_WORDS, b"", says)
        if wrong:
            return "%s: %s" % (words, wrong)
    return None


def no_tool(installed):
    for name in ("CC", "AR"):
        wrong = trouble(installed.tree.build(**{name: "no-such-tool"}),
                        WRONG_WORDS, b"", "'no-such-tool', which makes")
        if wrong:
            return "%s: %s" % (name, wrong)
    return None


def tests(installed, library):
    for test in (shared_library, files, links, manual, declarations,
                 with_the_archive, not_installed_too, another_header,
                 wrong_words, no_tool):
        yield ("C: installed, " + test.__name__.replace("_", " "),
               partial(test, installed))
    yield "C: installed, with DESTDIR", partial(with_destdir, library)
    yield ("C: installed, again and refused",
           partial(again_and_refused, installed, library))
    for standard, compilers, more in STANDARDS:
        for compiler in filter(shutil.which, compilers):
            yield ("C: installed, the example as %s by %s" % (
                standard, compiler), partial(
                    by_pkg_config, installed, compiler, standard, more))

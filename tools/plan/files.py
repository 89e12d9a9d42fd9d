"""Files that are read, and one that is written: whole, or not at all."""

import os
import sys
from pathlib import Path

from plan import text
from plan.ends import Trouble, called

MOST_BYTES = 1997       # of a plan file: domeplan takes lines of 4,000 bytes


def read_up_to(name, most, role):
    """At most so many bytes of a file; - is standard input."""
    if name == "-":
        if sys.stdin is None:
            raise Trouble("standard input is closed, and - stands for it")
        source = 0
    else:
        source = name
        if os.path.isdir(name):
            raise Trouble("%s is a directory, not %s" % (called(name), role))
    try:
        with open(source, "rb", closefd=source != 0) as opened:
            return opened.read(most)
    except FileNotFoundError:
        raise Trouble("there is no file %s" % called(name)) from None
    except (OSError, ValueError):
        raise Trouble("%s can't be read" % called(name)) from None


def read(name, role="a plan file"):
    """The bytes of a plan or its text, and one more where it is too long."""
    return read_up_to(name, text.MOST_BYTES + 1, role)


def same_file(one, other):
    try:
        return os.path.samefile(one, other)
    except OSError:
        return False


def check_out(out, source=None):
    """Ends where a file can't be written, or would be written over what it is
    made from."""
    if source not in (None, "-") and same_file(out, source):
        raise Trouble("%s would be written over itself: name another file "
                      "with --out" % called(source))
    if os.path.isdir(out):
        raise Trouble("'%s' is a directory: --out takes a file" % out)
    folder = Path(out).resolve().parent
    if not folder.is_dir():
        raise Trouble("%s can't be written: there is no folder '%s'" % (
            called(out), folder))


def mode_of(path):
    """The access rights that a file has, or that a new one gets."""
    try:
        return path.stat().st_mode & 0o7777
    except OSError:
        umask = os.umask(0)
        os.umask(umask)
        return 0o666 & ~umask


def replace(path, data):
    """Writes a file whole beside its place, and then puts it there."""
    beside = path.with_name(".%s.%d.tmp" % (path.name[:200], os.getpid()))
    try:
        with open(beside, "xb") as out:
            out.write(data)
            out.flush()
            os.fsync(out.fileno())
        os.chmod(beside, mode_of(path))
        os.replace(beside, path)
    except BaseException:
        beside.unlink(missing_ok=True)
        raise


def write(out, data):
    """Writes a file; what is no file, such as a pipe, takes the bytes as they
    are."""
    path = Path(out).resolve()
    try:
        if path.exists() and not path.is_file():
            with open(path, "wb") as place:
                place.write(data)
        else:
            replace(path, data)
    except OSError as error:
        raise Trouble("%s can't be written: %s; what was there is there still"
                      % (called(out), error.strerror)) from None

"""What the library says in words: the sentence of each refusal, which is that
of docs/REFUSALS.md, and its version."""

import re
import sys
from ctypes import CDLL, c_char_p, c_uint32
from functools import partial

from edges.refusals_page import cells_of
from edges.refusals_page import page as refusals
from front_door.command import ROOT, start, trouble
from front_door.pages import page

NOT_HERE = "; for the mesh and for delays see below"
PLAIN = "there is no such refusal"


def rows():
    """When each number is given and what to do, of its first row and of its
    row on lends."""
    found = {}
    for cells in cells_of(refusals()):
        if len(cells) == 5 and cells[0].isdecimal():
            texts = found.setdefault(int(cells[0]), [])
            if not texts or "lend's" in cells[1]:
                texts.append("%s; what to do: %s" % (
                    cells[1], cells[2].replace(NOT_HERE, "")))
    return {number: "; or ".join(texts).replace("`", "")
            for number, texts in found.items()}


def library(path):
    loaded = CDLL(str(path))
    for call in (loaded.nazgolv_why, loaded.nazgolv_version):
        call.restype = c_char_p
    loaded.nazgolv_why.argtypes = [c_uint32]
    return loaded


def sentences(installed):
    why = library(installed.shared).nazgolv_why
    wrong = [number for number, text in rows().items()
             if why(number).decode() != text]
    return wrong and "another sentence for %s" % wrong


def other_numbers(installed):
    """A granted call, and numbers that no row has."""
    why = library(installed.shared).nazgolv_why
    past = [max(rows()) + 1, 255, 1 << 31, (1 << 32) - 1]
    return (b"no refusal" not in why(0) and why(0).decode()
            or next((number for number in past
                     if why(number).decode() != PLAIN), None))


def version(installed):
    found = library(installed.shared).nazgolv_version().decode()
    return found != page("VERSION").strip() and found


def made_from_the_page():
    """player/why.c is what player/why.py prints."""
    return trouble(start([sys.executable, ROOT / "player/why.py"]),
                   output=(ROOT / "player/why.c").read_bytes())


def numbers_of_the_header():
    """Each has a sentence, and each number that a call gives has a name."""
    named = dict(re.findall(r"^#define NAZGOLV_REFUSED_(\w+) (\d+)",
                            page("include/nazgolv.h"), re.MULTILINE))
    found = sorted(map(int, named.values()))
    return not set(found) <= set(rows()) and "%s" % found


def tests(installed):
    for test in (sentences, other_numbers, version):
        yield ("C: the library, " + test.__name__.replace("_", " "),
               partial(test, installed))
    yield "C: the library's sentences are made", made_from_the_page
    yield "C: the header's numbers", numbers_of_the_header

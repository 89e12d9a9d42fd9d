"""Slips that the prover has to refuse: crates/NAME/must-fail/*.edit, read as
text.

An edit is one slip, whose name is the file's.  Or it is several, each after a
line `slip: NAME`, so that one check of the crate tries them all; tests/slips
tries each of these alone besides.  No two of an edit can be at one place:

- a slip in a function's body, and no other slip of the edit is in that
  function;
- a slip in a definition, with a line `told: FILE` that names a file of proofs
  which rests on it, and no other slip of the edit is in what that file
  imports."""

import re
from functools import lru_cache
from pathlib import Path
from typing import NamedTuple, Optional

from front_door.command import ROOT

FUNCTION = re.compile(
    r'^( *)(?:pub(?:\(\w+\))? )?(?:extern "C" )?fn (\w+)', re.MULTILINE)
TYPE = re.compile(r"^impl(?:<[^>]*>)? (\w+)", re.MULTILINE)
ITEM = re.compile(r"^(?:pub(?:\(\w+\))? )?(?:const|struct|enum|use|mod)\b",
                  re.MULTILINE)
IMPORT = re.compile(r"\bRattle\.(\w+)\.(specs|proofs)\.([\w.']+)")


class Slip(NamedTuple):
    crate: str
    edit: str               # the name of its file
    name: str
    words: str              # what it breaks
    steps: tuple            # a file, the old and the new text, of each change
    told: Optional[str]     # the file of proofs that its line names
    alone: bool             # in its edit


def edits(crate="*"):
    return sorted(ROOT.glob("crates/%s/must-fail/*.edit" % crate))


def parts(path):
    """The name of each slip of an edit, and its lines."""
    found, lines = [], path.read_text().splitlines()
    if not any(line.startswith("slip: ") for line in lines):
        return [(path.stem, lines)]
    for line in lines:
        if line.startswith("slip: "):
            found.append((line[6:], []))
        elif found:
            found[-1][1].append(line)
    return found


def slip_of(path, name, lines, alone):
    words, told, steps = "", None, []
    file = old = None
    for line in lines:
        word, _, text = line.partition(": ")
        if line.startswith("# "):
            words = words or line[2:]
        elif word == "file":
            file = text
        elif word == "told":
            told = text
        elif word == "old":
            old = text
        elif line.startswith("new:"):
            steps.append((file, old, text))
    return Slip(path.parts[-3], path.stem, name, words, tuple(steps), told,
                alone)


def slips(path):
    found = parts(path)
    return [slip_of(path, name, lines, len(found) == 1)
            for name, lines in found]


def misfit(crate, steps):
    """What is wrong with changes made one after the other, or None."""
    texts = {}
    for file, old, new in steps:
        text = texts.get(file, text_of(crate, file))
        if not text or not file.startswith(("src/", "specs/")):
            return "no file %s of src/ or specs/" % file
        if text.count(old) != 1 or old == new:
            return "%r stands %d times in %s" % (old, text.count(old), file)
        texts[file] = text.replace(old, new)
    return None


# ---- where a slip stands

@lru_cache(maxsize=None)
def text_of(crate, file):
    path = ROOT / "crates" / crate / file
    return path.read_text() if path.is_file() else ""


def function_at(file, text, place):
    """The folder of the proof of the function that a place of a source is in,
    or None."""
    before = [found for found in FUNCTION.finditer(text)
              if found.start() < place]
    items = [found for found in ITEM.finditer(text) if found.start() < place]
    if not before or items and items[-1].start() > before[-1].start():
        return None
    inside, name = before[-1].groups()
    module = Path(file).with_suffix("").parts[1:]
    path = [] if module in (("lib",), ("main",)) else list(module)
    if inside:
        path += TYPE.findall(text[:before[-1].start()])[-1:]
    return "/".join([*path, name])


def functions(slip):
    """The functions that a slip is in; None for what is in none."""
    return {function_at(file, text_of(slip.crate, file),
                        text_of(slip.crate, file).find(old))
            if file.startswith("src/") else None
            for file, old, _ in slip.steps}


def at_its_type(crate, function):
    """The folder of a function's proof; that of a method is its type's, which
    may stand in another module than the method."""
    short = "/".join(function.split("/")[-2:])
    folders = ROOT / "crates" / crate / "proofs"
    other = not (folders / function).is_dir() and (folders / short).is_dir()
    return "proofs/%s/" % (short if other else function)


def place_of(slip):
    """Where its fact is proved: a file, a function's folder, or None."""
    if slip.told:
        return slip.told
    found = functions(slip)
    only = found.pop() if len(found) == 1 else None
    return only and at_its_type(slip.crate, only)


# ---- what a file of proofs imports

def file_named(crate, part, name):
    """The file of a module, or of the one that it is in."""
    words = name.strip(".").split(".")
    while words:
        file = "%s/%s.antt" % (part, "/".join(words))
        if text_of(crate, file):
            return file
        words.pop()
    return None


@lru_cache(maxsize=None)
def imports(crate, file):
    """All files of its crate that a file rests on, and itself."""
    found, rest = set(), [file]
    while rest:
        file = rest.pop()
        if file not in found:
            found.add(file)
            rest += filter(None, (
                file_named(crate, part, name) for of, part, name
                in IMPORT.findall(text_of(crate, file)) if of == crate))
    return found


def mixed(one, other):
    """Whether two slips are at one place."""
    if one.told:
        return bool(imports(one.crate, one.told)
                    & {file for file, *_ in other.steps})
    return other.told is not None or place_of(one) == place_of(other)


def unfit(path):
    """What is wrong with the slips of one edit together, or None."""
    found = slips(path)
    if len(found) == 1:
        return None
    for slip in found:
        if not place_of(slip):
            return "%s: it is in no function, and has no line told" % slip.name
        if slip.told and not {file for file, *_ in slip.steps} <= imports(
                slip.crate, slip.told):
            return "%s: %s doesn't rest on it" % (slip.name, slip.told)
        for other in found:
            if other is not slip and mixed(slip, other):
                return "%s and %s are at one place" % (slip.name, other.name)
    return None


def gathered():
    """Each slip that shares its edit with others."""
    return [slip for path in edits() for slip in slips(path)
            if not slip.alone]

"""The contracts of the crates, read as text: each function with what it asks
and what it promises, and the definitions that a promise is made of.  What a
contract means is the prover's; here its shape is read."""

import re
from functools import lru_cache

from front_door.command import ROOT

CRATES = ROOT / "crates"
FUNCTION = re.compile(r'^( *)(pub(?:\(crate\))? )?(?:extern "C" )?fn (\w+)',
                      re.MULTILINE)
CLAUSE = re.compile(r"^ *(requires|ensures)(?: (\w+))? \{", re.MULTILINE)
GHOST = re.compile(r"^ghost use Rattle\.(\w+)\.specs\.([\w.]+)"
                   r"(?:\.\{([^}]*)\}| as (\w+));", re.MULTILINE)
USE = re.compile(r"^(?:pub )?use Rattle\.(\w+)\.specs\.([\w.]+)"
                 r"(?:\.\{([^}]*)\}| as (\w+))$", re.MULTILINE)
COMMENT = re.compile(r"^ *--.*\n", re.MULTILINE)
RECORD = re.compile(r"^(?:pub )?record ([^\s:({]+)")
GIVEN = re.compile(r"^(?:abbrev |unfoldable )?(?:pub )?([^\s:({]+) :")
FIELD = re.compile(r"^ +(?:pub )?([^\s:({]+) : (.*)")
BINDERS = re.compile(r"^[({][^(){}:]+ : ")
# The library's word for what holds where something is true.
ON_TRUE = re.compile(r"OnTrue (\S+) (\(.*\))$")
OPENS, CLOSES = "([{", ")]}"


class Clause:
    """A requires or an ensures: its name, where it has one, and its text."""

    def __init__(self, name, text):
        self.name = name or ""
        self.text = " ".join(text.split())


class Function:
    """A function of the sources, with its contract."""

    def __init__(self, path, name, shown):
        self.path = path
        self.crate = path.relative_to(CRATES).parts[0]
        self.name = name
        self.shown = shown              # for others, or None
        self.signature = ""
        self.requires = []
        self.ensures = []

    def title(self):
        module = self.path.stem
        middle = "" if module == "lib" else module + "::"
        return "%s::%s%s" % (self.crate, middle, self.name)


def closed(text, start):
    """The place after the bracket that closes the one before `start`."""
    depth = 1
    while depth:
        depth += (text[start] in OPENS) - (text[start] in CLOSES)
        start += 1
    return start


def functions_of(path):
    """Those of a source, in their order."""
    text = path.read_text(encoding="utf-8")
    found = list(FUNCTION.finditer(text))
    for head, after in zip(found, found[1:] + [None]):
        each = Function(path, head.group(3), head.group(2))
        end = after.start() if after else len(text)
        place = head.end()
        each.signature = re.split(r"\n *(?:requires|ensures)\b|\{",
                                  text[place:end])[0]
        while True:
            clause = CLAUSE.search(text, place, end)
            if not clause:
                break
            place = closed(text, clause.end())
            getattr(each, clause.group(1)).append(
                Clause(clause.group(2), text[clause.end():place - 1]))
        yield each


@lru_cache(maxsize=None)
def functions():
    return [each for path in sorted(CRATES.glob("*/src/**/*.rt"))
            for each in functions_of(path)]


# ---- texts of types

def parts(text, mark):
    """A text cut at a mark that stands outside of brackets."""
    found, depth, begin, place = [], 0, 0, 0
    while place < len(text):
        depth += (text[place] in OPENS) - (text[place] in CLOSES)
        if not depth and text.startswith(mark, place):
            found.append(text[begin:place])
            begin = place = place + len(mark)
        else:
            place += 1
    return [part.strip() for part in found + [text[begin:]]]


def bare(text):
    """Without brackets around the whole."""
    text = text.strip()
    while text.startswith("(") and closed(text, 1) == len(text):
        text = text[1:-1].strip()
    return text


def quantified(text):
    """What a type speaks of: the bound variables and the conditions on them,
    and what it says of these."""
    steps = parts(bare(text), " → ")
    bound = [step for step in steps[:-1] if BINDERS.match(step)]
    asked = [step for step in steps[:-1] if not BINDERS.match(step)]
    says = steps[-1]
    on_true = ON_TRUE.match(bare(says))
    if on_true:
        asked.append(on_true.group(1) + " ≡ true")
        says = on_true.group(2)
    return bound, asked, says


# ---- definitions

class Definitions:
    """Those of a file of specs/: for each name the types that it stands for,
    a record's by its fields, another's by its equations."""

    def __init__(self, crate, module):
        self.crate, self.module = crate, module
        self.path = (CRATES / crate / "specs"
                     / (module.replace(".", "/") + ".antt"))
        self.text = COMMENT.sub("", self.path.read_text(encoding="utf-8"))
        self.types = {}
        current = None
        for block in re.split(r"^(?=\S)", self.text, flags=re.MULTILINE):
            current = self.taken(block, current)

    def taken(self, block, current):
        """Takes a block.  The name whose equations may follow, or None."""
        record, given = RECORD.match(block), GIVEN.match(block)
        if record:
            lines = re.sub(r"\n {4,}", " ", block).splitlines()[1:]
            self.types[record.group(1)] = [
                field.groups() for field in map(FIELD.match, lines) if field]
        elif given and re.search(r"[→:] Type 0\s*$", block):
            self.types[given.group(1)] = []
            return given.group(1)
        elif current and block.split()[:1] == [current]:
            body = block.partition(" =")[2]
            self.types[current].append(("", " ".join(body.split())))
            return current
        return None

    def names(self):
        """What a word in this file may stand for."""
        own = {name: (self.crate, self.module, name) for name in self.types}
        names, aliases = imported(self.text, USE)
        return {**own, **names}, aliases


@lru_cache(maxsize=None)
def definitions(crate, module):
    try:
        return Definitions(crate, module)
    except FileNotFoundError:
        return None


def imported(text, pattern):
    """For each name the crate, the module and the name there that it stands
    for, and for each alias the crate and the module."""
    names, aliases = {}, {}
    for crate, module, chosen, alias in pattern.findall(text):
        if alias:
            aliases[alias] = (crate, module)
        for name in (chosen or "").split(","):
            first, _, other = name.strip().partition(" as ")
            if first:
                names[other or first] = (crate, module, first)
    return names, aliases


def resolved(word, names, aliases):
    """The file and the name of the definition that a word is, or None."""
    alias, dot, name = word.partition(".")
    if dot and alias in aliases:
        crate, module = aliases[alias]
    elif word in names:
        crate, module, name = names[word]
    else:
        return None
    found = definitions(crate, module)
    return (found, name) if found and name in found.types else None


# ---- what a promise speaks of

class Spoken:
    """Something that a promise says of all that meet a condition."""

    def __init__(self, function, clause, where, bound, asked):
        self.function = function
        self.clause = clause
        self.where = where      # the definition that says it, or None
        self.bound = bound
        self.asked = asked


class Reader:
    """Reads one promise of a function, with the definitions it is made of."""

    def __init__(self, function, clause):
        self.function, self.clause = function, clause
        self.read, self.found, self.unknown = set(), [], set()
        source = function.path.read_text(encoding="utf-8")
        self.take(clause.text, *imported(source, GHOST), None)

    def take(self, text, names, aliases, where):
        for part in parts(bare(text), " × "):
            bound, asked, says = quantified(part)
            if asked:
                self.found.append(Spoken(self.function, self.clause, where,
                                         bound, asked))
            word = bare(says).split()[0] if says.split() else ""
            definition = resolved(word, names, aliases)
            if definition:
                self.define(*definition)
            elif re.match(r"(\w+\.)?[A-Z]\w", word):
                self.unknown.add(word)

    def define(self, file, name):
        if (file.path, name) in self.read:
            return
        self.read.add((file.path, name))
        where = "%s/%s %s" % (file.crate, file.module, name)
        for field, text in file.types[name]:
            self.take(text, *file.names(), where)


@lru_cache(maxsize=None)
def promises():
    """Every promise of every function, read."""
    return [Reader(each, clause) for each in functions()
            for clause in each.ensures]

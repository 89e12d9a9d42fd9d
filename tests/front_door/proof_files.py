"""What stands in crates/: theorems and which of them nothing uses, claims,
and the functions that a crate shows to others.  Names alone are read here;
what a theorem says is the prover's."""

import re
from collections import defaultdict
from functools import lru_cache

from front_door.command import ROOT

CRATES = ROOT / "crates"
MEASURING = ("timing",)         # its functions read clocks and have no claims
COMMENT = re.compile(r"--.*")
IMPORT = re.compile(r"^ *(?:pub )?use [^\n{]*(?:\{[^}]*\})?", re.MULTILINE)
GHOST = re.compile(r"^ghost use [^;]*;", re.MULTILINE)
CITED = re.compile(r"#!?\[tactic\([^\]]*\)\]")     # by a function's source
WORD = re.compile(r"[^\s(){}.,;]+")
BLOCK = re.compile(r" *(?:pub )?(?:record|data) [^{\s]")
MODULE = re.compile(r" *module ")
HEAD = re.compile(r"( *)(abbrev |unfoldable |opaque )?(pub )?"
                  r"([^\s(){}.,;:]+) :(?= |$)(.*)")
DEFINED = re.compile(r"(?:abbrev |unfoldable )?(?:pub )?(?:record |data )?"
                     r"([A-Z][^\s(){}.,;:]*)")


class Declaration:
    """A name with its statement and what proves it."""

    def __init__(self, path, head):
        self.path = path
        self.indent = len(head.group(1))
        self.theorem = bool(head.group(3)) and not head.group(2)
        self.name = head.group(4)
        self.lines = [head.group(5)]

    def statement(self):
        """Up to the first equation, or what is unfolded for it."""
        stated = [self.lines[0]]
        for line in self.lines[1:]:
            first = line.split()[0]
            if first in (self.name, "unfolding"):
                break
            stated.append(line)
        return " ".join(" ".join(stated).split())


def declarations(path):
    """Those of a file, in their order.  What stands inside one is a part of
    it; fields of records are none."""
    text = COMMENT.sub("", path.read_text(encoding="utf-8"))
    current, block = None, None
    for line in IMPORT.sub("", text).splitlines():
        if not line.strip():
            continue
        indent = len(line) - len(line.lstrip())
        if block is not None and indent <= block:
            block = None
        if BLOCK.match(line):
            current, block = None, indent
        elif MODULE.match(line):
            current = None
        elif block is None:
            head = HEAD.match(line)
            if head and (current is None or indent <= current.indent):
                current = Declaration(path, head)
                yield current
            elif current:
                current.lines.append(line)


@lru_cache(maxsize=None)
def every_declaration():
    return [each for path in sorted(CRATES.glob("*/proofs/**/*.antt"))
            for each in declarations(path)]


@lru_cache(maxsize=None)
def users():
    """For each word the names of the declarations that have it, and the
    sources of the functions whose attribute cites it."""
    found = defaultdict(set)
    for each in every_declaration():
        for word in WORD.findall("\n".join(each.lines)):
            found[word].add(each.name)
    for path in CRATES.glob("*/src/**/*.rt"):
        for cited in CITED.findall(path.read_text(encoding="utf-8")):
            for word in re.findall(r"::(\w+)", cited):
                found[word].add(str(path))
    return found


@lru_cache(maxsize=None)
def claims():
    """What specs/ define by a name with a capital letter and nothing else of
    specs/ or of a contract uses: it is there to be proved."""
    defined, used = set(), set()
    for path in CRATES.glob("*/specs/**/*.antt"):
        text = IMPORT.sub("", COMMENT.sub("", path.read_text()))
        for line in text.splitlines():
            head = DEFINED.match(line)
            if head:
                defined.add(head.group(1))
                line = line[head.end():]
            used.update(WORD.findall(line))
    for path in CRATES.glob("*/src/*.rt"):
        used.update(WORD.findall(GHOST.sub("", path.read_text(
            encoding="utf-8"))))
    return defined - used


def is_claimed(each):
    """Whether the whole statement is a claim of specs/ by its name."""
    words = WORD.findall(each.statement())
    return (each.indent == 0 and bool(words) and words[0] in claims()
            and not {"→", "≡", "×", "↔"} & set(words))


def asked_for():
    """Theorems of proofs/ itself that nothing else uses, or that are claims
    by name.  Those of its folders prove the contracts of functions."""
    return [each for each in every_declaration()
            if each.theorem and each.path.parent.name == "proofs"
            and (not users()[each.name] - {each.name} or is_claimed(each))]


def declared(path):
    """The names that a file of proofs declares for others."""
    return {each.name for each in declarations(path) if each.theorem}


# ---- functions

FUNCTION = re.compile(r'^pub (?:extern "C" )?fn (\w+)', re.MULTILINE)
SHOWN = re.compile(r"^pub use (\w+)::(?:(\w+)|\{([^}]*)\});", re.MULTILINE)
STRUCT = re.compile(r"^pub struct (\w+)", re.MULTILINE)
METHODS = re.compile(r"^impl (\w+) \{\n(.*?)^\}", re.MULTILINE | re.DOTALL)
METHOD = re.compile(r"^    pub fn (\w+)", re.MULTILINE)


def functions_in(path):
    """The functions and methods that a source has for others."""
    text = path.read_text(encoding="utf-8")
    return set(FUNCTION.findall(text)) | set(METHOD.findall(text))


def passed_on(text):
    """The module and the name of each thing that a lib.rt passes on."""
    for module, name, names in SHOWN.findall(text):
        yield from ((module, each) for each in re.findall(
            r"\w+", name or names))


def shown_by(root):
    """The sources and the names of what a crate shows where it is named: the
    functions of lib.rt, those that it passes on, methods of its structs."""
    text = root.read_text(encoding="utf-8")
    yield from ((root, name) for name in FUNCTION.findall(text))
    for module, name in passed_on(text):
        path = root.parent / (module + ".rt")
        if path.exists() and name in functions_in(path):
            yield path, name
    structs = STRUCT.findall(text)
    for path in sorted(root.parent.glob("*.rt")):
        for struct, body in METHODS.findall(path.read_text(encoding="utf-8")):
            if struct in structs:
                yield from ((path, name) for name in METHOD.findall(body))


def shown_functions():
    for root in sorted(CRATES.glob("*/src/lib.rt")):
        if root.parents[1].name not in MEASURING:
            yield from shown_by(root)

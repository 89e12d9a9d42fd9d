"""Functions of the crates stay small: at most seven parameters, and a body
under forty lines."""

import re

from front_door.contract_files import CRATES

PARAMETERS = 7
LINES = 40
HEAD = re.compile(r"^( *)(?:pub(?:\(crate\))? )?(?:extern \"C\" )?fn (\w+)"
                  r"(?:<[^>]*>)?\(([^)]*)\)", re.MULTILINE)


def sizes(text):
    """The name of each function, its parameters, and the lines of its body."""
    for head in HEAD.finditer(text):
        indent, name, parameters = head.groups()
        # where it has no clause, the body begins on the line of its head
        body = re.compile(r"\{\n(.*?)^%s\}$" % indent,
                          re.MULTILINE | re.DOTALL).search(text, head.end())
        yield (name, len([each for each in parameters.split(",")
                          if each.strip()]),
               body.group(1).count("\n") if body else 0)


def found():
    for path in sorted(CRATES.glob("*/src/**/*.rt")):
        for name, parameters, lines in sizes(path.read_text(encoding="utf-8")):
            yield "%s of %s" % (name, path.relative_to(CRATES)), parameters, \
                lines


def few_parameters():
    return "; ".join("%s has %d" % (name, parameters)
                     for name, parameters, _ in found()
                     if parameters > PARAMETERS)


def few_lines():
    return "; ".join("%s has %d" % (name, lines) for name, _, lines in found()
                     if lines >= LINES)


def each_is_read():
    """What is too large is told, and most functions have a body."""
    text = "fn f(%s) -> u8\n    ensures { x }\n{\n%s}\n" % (
        ", ".join("a%d: u8" % i for i in range(8)), "    a0;\n" * 40)
    whole = [lines for _, _, lines in found()]
    return (list(sizes(text)) != [("f", 8, 40)] and str(list(sizes(text)))
            or len(whole) < 300 and "only %d are read" % len(whole)
            or whole.count(0) > 20 and "%d have no body" % whole.count(0))


TESTS = (few_parameters, few_lines, each_is_read)


def tests(_):
    for test in TESTS:
        yield "functions: " + test.__name__.replace("_", " "), test

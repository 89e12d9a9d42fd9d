"""What stands in a page of Markdown: code, links and tables."""

import os
import re
from functools import lru_cache
from pathlib import Path

from front_door.command import ROOT, start, trouble

FILE = re.compile(r"[\w./-]+\.(?:antt|rt|md|py|rs|c|h|svg|txt)"
                  r"|[\w.-]+/[\w./-]*")


BUILT = {"out", "target", "__pycache__", ".git"}     # folders


def page(name):
    return (ROOT / name).read_text(encoding="utf-8")


def below(folder):
    """The files and folders of the tree below one, but for what is built."""
    for at, folders, files in os.walk(folder):
        folders[:] = sorted(set(folders) - BUILT)
        yield from (Path(at, name) for name in [*folders, *sorted(files)])


def code_lines(text):
    """The lines of indented code."""
    return [line.strip() for line in text.splitlines()
            if line.startswith("    ")]


def inline_code(text):
    return re.findall(r"`([^`\n]+)`", text)


def links(text):
    return re.findall(r"\]\(([^)\s]+)\)", text)


def anchors(text):
    """The names by which headings are linked to."""
    heads = re.findall(r"^#+ (.*)$", text, re.MULTILINE)
    return {re.sub(r"[^\w -]", "", head).lower().replace(" ", "-")
            for head in heads}


def table(text, first):
    """The cells of each row of the table whose first column has this head."""
    rows, inside = [], False
    for line in text.splitlines():
        inside = line.startswith("|") and (
            inside or line.startswith("| %s |" % first))
        if inside:
            rows.append([cell.strip() for cell in line.strip("|").split("|")])
    return rows[2:]


def places(text, folder=None):
    """Each file or folder that code in a text names, and where it has to be.
    A bare name of a file stands in the folder of the one before it."""
    for name in inline_code(text):
        if not FILE.fullmatch(name) or name.startswith("target/"):
            continue
        roots = [ROOT, ROOT / "crates"]
        if "/" not in name and folder:
            roots.append(folder)
        found = [root / name for root in roots if (root / name).exists()]
        yield name, found[0] if found else None
        if found and "/" in name:
            folder = found[0] if found[0].is_dir() else found[0].parent


# ---- commands that a page names

@lru_cache(maxsize=None)
def help_of(command):
    """What a command's --help says, and what is wrong with it."""
    ended = start([ROOT / command, "--help"])
    return ended.output.decode(), trouble(ended)


def help_lacks(words):
    """What the --help of a command doesn't say of these words, or None."""
    command = words[0][2:] if words[0].startswith("./") else words[0]
    if not (ROOT / command).is_file():
        return "there is no " + command
    said, wrong = help_of(command)
    asked = [words[0], *(word for word in words if word.startswith("--"))]
    missing = [word for word in asked
               if not re.search(re.escape(word) + r"(?![\w-])", said)]
    return wrong or (missing and "the help of %s has no %s"
                     % (command, ", ".join(missing))) or None

"""docs/PERFORMANCE.md: its table of now, the command that makes it, and the
pages that quote it.

A quote is a number of README.md or docs/COMPARISON.md:

- with a decimal point, in a sentence or a row of a table with the words
  'plain Rust';
- with a decimal point or a thousands' comma, in any row of a table with these
  words in its first row.

Versions, as 4.5.2, are none.  Each quote has to stand in a cell of the table
of now, and each of the two pages has a ratio of it.  So a page that tells
other figures (calls a second, megabytes) keeps them out of such places."""

import re
import sys

from front_door.command import ROOT
from front_door.pages import page

PAGE = "docs/PERFORMANCE.md"
QUOTING = ("README.md", "docs/COMPARISON.md")
WORDS = "plain rust"
RATIO = 3                       # the column
NUMBER = re.compile(r"(?<![\d.,])\d[\d,]*(?:\.\d+)?(?!\.?\d)")
QUOTE = re.compile(r"(?<![\d.])\d+\.\d+(?!\.?\d)")
LARGE = re.compile(r"(?<![\d.,])\d{1,3}(?:,\d{3})+(?![\d,]*\d)")


def report():
    """The module of bench/run that makes the table."""
    folder = str(ROOT / "bench")
    if folder not in sys.path:
        sys.path.append(folder)
    import report as module
    return module


# ---- the page itself

def rows():
    """The cells of each row of the table of now."""
    lines = report().inside(page(PAGE)).splitlines()
    return [[cell.strip() for cell in line.strip("|").split("|")]
            for line in lines if line.startswith("|")][2:]


def number_of(cell):
    found = NUMBER.search(cell)
    return float(found.group().replace(",", "")) if found else None


def wrong_row(cells):
    """What is wrong with a row of the table, or None."""
    if len(cells) != len(report().HEAD):
        return "%d cells" % len(cells)
    ours, theirs, ratio, _, mark = map(number_of, cells[1:6])
    if ours and theirs and abs(ours / theirs - ratio) > 0.01 * ratio + 0.01:
        return "the ratio is %.2f" % (ours / theirs)
    measured = ratio if re.fullmatch(r"[\d.]+", cells[5]) else ours
    if mark and measured and (measured <= mark) != (cells[6] == "yes"):
        return "%s of %s is %s" % (measured, mark, cells[6])
    return None


def agrees():
    """Ratios are quotients, and a mark is met where the row says so."""
    wrong = ["%s: %s" % (cells[0], wrong_row(cells)) for cells in rows()
             if wrong_row(cells)]
    return "; ".join(wrong) or (not rows() and "it has no rows")


# ---- the command

def makes_rows():
    """Figures become cells: ratio, mark and whether it is met."""
    module = report()
    figures = {row.key: module.Figure(30.0) for row in module.ROWS}
    figures["dense"] = module.Figure(30.0, 28.4)
    figures["small"] = module.Figure(20.0, 20.0)
    figures["request"] = module.Figure(118.44, 11.0, 50.0)
    made = module.table(
        {key: figure if figure.theirs else figure._replace(theirs=30.0)
         for key, figure in figures.items()}, 1609)
    right = [
        "| whole file, dense | 30.0 ms | 28.4 ms | 1.06 | - | 1.05 | no |",
        "| whole file, small | 20.0 ms | 20.0 ms | 1.00 | - | 1.00 | yes |",
        "| one request by value | 118.4 ns | 11.0 ns | 10.77 | 50.0 ns | - "
        "| - |",
        "| the gate, %s | 1,609 s | - | - | - | 1,200 s | no |"
        % module.version()]
    lost = [line for line in right if line not in made]
    return lost and "not made: %s" % lost


def writes_between():
    """What stands outside the page's two lines stays."""
    module = report()
    before, _, after = module.parts(page(PAGE))
    made = module.placed(page(PAGE), "a table\n")
    return (module.parts(made) != (before, "a table\n", after)
            and "something else changed")


def keeps_the_gate():
    """Without its seconds the gate's row stays as the page has it."""
    made = report().gate(None)
    return made not in page(PAGE) and made


# ---- quotes

def tables(text):
    """Each row of a table, after whether the first row has the words."""
    of_rust = None
    for line in text.splitlines():
        if not line.startswith("|"):
            of_rust = None
            continue
        if of_rust is None:
            of_rust = WORDS in line.lower()
        yield of_rust, line


def sentences(text):
    """Of all lines that are no table."""
    prose = "\n".join("" if line.startswith("|") else line
                      for line in text.splitlines())
    return [" ".join(sentence.split())
            for sentence in re.split(r"(?<=[.:;?!])\s|\n\s*\n", prose)]


def quotes(text):
    """The numbers that a page quotes, in the docstring's sense."""
    rows_of_rust = [line for of_rust, line in tables(text) if of_rust]
    places = [*sentences(text), *rows_of_rust,
              *(line for _, line in tables(text))]
    found = [number for place in places
             if place in rows_of_rust or WORDS in place.lower()
             for number in QUOTE.findall(place)]
    return {*found, *(number for row in rows_of_rust
                      for number in LARGE.findall(row))}


def quoted(name):
    cells = [cell for row in rows() for cell in row]
    known = {number for cell in cells
             for number in QUOTE.findall(cell) + LARGE.findall(cell)}
    found = quotes(page(name))
    if found - known:
        return "not in the table of %s: %s" % (
            PAGE, ", ".join(sorted(found - known)))
    return (not found & {row[RATIO] for row in rows()}
            and "it quotes no ratio")


def finds_quotes():
    """The rule of the docstring on a page by hand."""
    found = quotes(
        "Version 4.5.2 takes 1.06 times plain Rust. It has 8.5 pages.\n\n"
        "| What | Plain Rust |\n|---|---|\n| gate | 1,609 s, 28.4 ms |\n\n"
        "| What | Size |\n|---|---|\n| page | 2.5 |\n"
        "| 7.25 of plain Rust | 8,894 |\n")
    return found != {"1.06", "28.4", "1,609", "7.25"} and "%s" % found


def tests(_):
    yield "docs: PERFORMANCE, the table of now", agrees
    yield "bench/run --report: rows", makes_rows
    yield "bench/run --report: between two lines", writes_between
    yield "bench/run --report: the gate's row", keeps_the_gate
    yield "docs: PERFORMANCE, what is a quote", finds_quotes
    for name in QUOTING:
        yield ("docs: PERFORMANCE, quoted in %s" % name,
               lambda name=name: quoted(name))

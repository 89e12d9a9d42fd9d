"""The table of now in docs/PERFORMANCE.md: what is measured, a row each, with
its mark.

Another row is a line of ROWS, with its key among the figures that a function
of SUBJECTS gives."""

import sys
from datetime import date
from typing import NamedTuple, Optional

import counts
import extras
import files
import hosted
import meshes
import programs
import single
import slower

PAGE = programs.ROOT / "docs/PERFORMANCE.md"
BEGINS = "<!-- bench/run --report begins -->"
ENDS = "<!-- bench/run --report ends -->"
HEAD = ("What", "Proved", "Plain Rust", "Ratio", "Floor", "Mark", "Met")
NONE = "-"
GATE = "the gate"


class Figure(NamedTuple):
    ours: float
    theirs: Optional[float] = None
    floor: Optional[float] = None


class Row(NamedTuple):
    key: str
    what: str
    form: str                           # of a figure, with its unit
    ratio: Optional[float] = None       # the mark, as a ratio
    most: Optional[float] = None        # or as a figure


ROWS = (
    Row("dense", "whole file, dense", "{:.1f} ms", ratio=1.05),
    Row("small", "whole file, small", "{:.1f} ms", ratio=1.0),
    Row("ticks", "whole file, ticks", "{:.1f} ms", ratio=1.0),
    Row("request", "one request by value", "{:.1f} ns"),
    Row("credit", "one credit by value", "{:.1f} ns"),
    Row("tick", "one tick by value", "{:.1f} ns"),
    Row("granted, dense", "word of a burst, granted, dense", "{:.1f} ns",
        ratio=2.0),
    Row("granted, nearly full", "word of a burst, granted, nearly full",
        "{:.1f} ns", ratio=2.0),
    Row("mixed, dense", "word of a burst, mixed, dense", "{:.1f} ns",
        ratio=2.0),
    Row("mixed, nearly full", "word of a burst, mixed, nearly full",
        "{:.1f} ns", ratio=2.0),
    Row("image, dense", "image call, dense", "{:,.0f} ns",
        ratio=hosted.MARK),
    Row("image, ticks", "image call, ticks", "{:,.0f} ns",
        ratio=hosted.MARK),
    Row("image, small", "image call, small", "{:,.0f} ns",
        ratio=hosted.MARK),
    Row("image, play", "record of a play, dense", "{:.1f} ns",
        ratio=hosted.MARK),
    Row("admitted", "64 streams over the mesh, admitted", "{:,.0f} ns",
        most=10_000),
    Row("refused", "64 streams over the mesh, refused", "{:,.0f} ns",
        most=10_000),
    Row("count", "`count 16 8`", "{:,.0f} µs", most=1000),
    Row("extras", "`extras`, 12 layers, all sets", "{:,.0f} µs", most=200),
)
GATE_ROW = Row("gate", GATE, "{:,.0f} s", most=1200)


# ---- what is measured: a key, and its figure in the unit of its row

def whole_files(folder, count, rounds):
    for kind, best in files.measure(folder, count, rounds).items():
        yield kind, Figure(*(1000 * least for least in best))


def single_calls(folder, _, rounds):
    least = single.floor(folder, rounds)
    ours, theirs = single.measure_calls(folder, rounds)
    for kind in ("request", "credit", "tick"):
        yield kind, Figure(ours[kind], theirs[kind], least)


def bursts(folder, _, rounds):
    for words, table, (ours, theirs) in single.measure_bursts(folder, rounds):
        yield ("%s, %s" % (words, table),
               Figure(ours["burst"], theirs["burst"], ours["floor"]))


def host_images(folder, _, rounds):
    for key, ours, theirs in hosted.measure(folder, rounds):
        yield "image, " + key, Figure(ours, theirs)


def mesh_checks(folder, _, rounds):
    for kind in meshes.SLOTS:
        yield kind, Figure(*meshes.measure(kind, folder, rounds))


def questions(_, __, rounds):
    yield "count", Figure(counts.measure(rounds)[(16, 8)])
    yield "extras", Figure(extras.measure(rounds)[0])


SUBJECTS = (whole_files, single_calls, bursts, host_images, mesh_checks,
            questions)


def measure(folder, count, rounds):
    return {key: figure for subject in SUBJECTS
            for key, figure in subject(folder, count, rounds)}


# ---- rows

def cells(row, figure):
    """A row's cells; what was not measured or asked for is a dash."""
    ratio = figure.theirs and figure.ours / figure.theirs
    mark, met = NONE, NONE
    if row.ratio:
        # as it is printed, so that a reader finds the two cells agree
        mark, met = "%.2f" % row.ratio, round(ratio, 2) <= row.ratio
    elif row.most:
        mark, met = row.form.format(row.most), figure.ours <= row.most
    return [row.what, row.form.format(figure.ours),
            row.form.format(figure.theirs) if figure.theirs else NONE,
            "%.2f" % ratio if ratio else NONE,
            row.form.format(figure.floor) if figure.floor else NONE,
            mark, met if met is NONE else "yes" if met else "no"]


def line(texts):
    return "| %s |" % " | ".join(texts)


def version():
    return (programs.ROOT / "VERSION").read_text().strip()


def kept_gate():
    """The gate's row as the page has it, with the version that it is of."""
    for text in inside(PAGE.read_text(encoding="utf-8")).splitlines():
        if text.startswith("| " + GATE):
            return text
    return line([GATE] + [NONE] * (len(HEAD) - 1))


def gate(seconds):
    if seconds is None:
        return kept_gate()
    row = GATE_ROW._replace(what="%s, %s" % (GATE, version()))
    return line(cells(row, Figure(seconds)))


def conditions(count, rounds):
    return "Version %s, %s, %s; %s, %s. Best of %d, %s calls a file." % (
        version(), programs.commit(), date.today().isoformat(),
        programs.processors(), programs.said("rustc", "--version"), rounds,
        format(count, ","))


def table(figures, seconds):
    return [line(HEAD), "|" + "---|" * len(HEAD),
            *(line(cells(row, figures[row.key])) for row in ROWS),
            gate(seconds)]


def made(folder, count, rounds, seconds):
    """What stands between the page's two lines."""
    figures = measure(folder, count, rounds)
    return "\n".join([conditions(count, rounds), "",
                      *table(figures, seconds)]) + "\n"


# ---- the page

def parts(page):
    """What stands before, between and after the page's two lines."""
    before, begins, rest = page.partition(BEGINS + "\n")
    between, ends, after = rest.partition(ENDS + "\n")
    if not begins or not ends:
        programs.stop("docs/PERFORMANCE.md has no lines '%s' and '%s'"
                      % (BEGINS, ENDS))
    return before, between, after


def inside(page):
    return parts(page)[1]


def placed(page, text):
    """The page with this text between its two lines."""
    before, _, after = parts(page)
    return "".join([before, BEGINS, "\n", text, ENDS, "\n", after])


def write(text):
    PAGE.write_text(placed(PAGE.read_text(encoding="utf-8"), text),
                    encoding="utf-8")


def compare(text):
    """Says which ratios are worse than the page's; 1 where one is."""
    said, lost = slower.sentence(
        inside(PAGE.read_text(encoding="utf-8")).splitlines(),
        text.splitlines())
    print("bench/run: " + said, file=sys.stderr)
    return 1 if lost else 0


def show(folder, count, rounds, seconds, to_page):
    """Prints the table, says which speeds are lost, and writes the page if
    that is asked for.  The exit status."""
    text = made(folder, count, rounds, seconds)
    print(text, end="", flush=True)
    status = compare(text)
    if to_page:
        write(text)
    return status

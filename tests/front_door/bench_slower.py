"""bench/run --report: a speed that is lost is told, with figures made up."""

import contextlib
import io
import tempfile
from pathlib import Path

from front_door.performance_page import report

OURS, THEIRS = 20.0, 10.0       # a ratio of 2.00
GATE_OF = 1100                  # seconds

# How far the time of `dense` is above that of the page, the exit status, and
# a part of what is said.
SAID = (
    (0.9, 0, "of 16 ratios none is more than 10 of 100 above"),
    (1.0, 0, "of 16 ratios none is more than 10 of 100 above"),
    (1.1, 0, "of 16 ratios none is more than 10 of 100 above"),
    (1.11, 1, "above that of docs/PERFORMANCE.md: whole file, dense 2.22, "
              "was 2.00; measure again alone"))


def figures(module, dense=1.0):
    """Every row 2.00, but `dense`; what has no plain Rust has no ratio."""
    alone = {"count", "extras"}
    found = {row.key: module.Figure(OURS, None if row.key in alone else THEIRS)
             for row in module.ROWS}
    found["dense"] = module.Figure(dense * OURS, THEIRS)
    return found


def shown(module, measured):
    """The exit status of a report with these figures, and what is said."""
    errors = io.StringIO()
    module.measure = lambda *_: measured
    with contextlib.redirect_stderr(errors), \
            contextlib.redirect_stdout(io.StringIO()):
        status = module.show(None, 2, 1, GATE_OF, True)
    return status, errors.getvalue()


def page_of(module, folder, measured):
    """A page with the table of these figures, in the place of the real one."""
    module.PAGE = Path(folder) / "PERFORMANCE.md"
    table = "\n".join(module.table(measured, GATE_OF))
    module.PAGE.write_text("\n".join(
        ["before", module.BEGINS, table, module.ENDS, "after", ""]))


def told():
    module = report()
    kept = module.PAGE, module.measure
    try:
        with tempfile.TemporaryDirectory() as folder:
            for times, status, part in SAID:
                page_of(module, folder, figures(module))
                ended, said = shown(module, figures(module, times))
                if ended != status or part not in said:
                    return "%.2f: status %d, %s" % (times, ended, said)
                if "%.2f |" % (2 * times) not in module.PAGE.read_text():
                    return "%.2f: the table is not written" % times
    finally:
        module.PAGE, module.measure = kept
    return None


def other_rows():
    """A row that one of the two tables doesn't have is not compared."""
    slower = report().slower
    old = ["| gone | 30 ms | 10 ms | 3.00 | - | - | - |",
           "| kept | 30 ms | 10 ms | 3.00 | - | - | - |",
           "| count | 30 µs | - | - | - | - | - |"]
    new = ["| kept | 30 ms | 10 ms | 3.00 | - | - | - |",
           "| count | 90 µs | - | - | - | - | - |",
           "| made | 90 ms | 10 ms | 9.00 | - | - | - |"]
    found = slower.fallen(old, new), slower.compared(old, new)
    return found != ([], 1) and "%s" % (found,)


def tests(_):
    yield "bench/run --report: a speed that is lost is told", told
    yield "bench/run --report: rows of one table alone", other_rows

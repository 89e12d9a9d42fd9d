"""Which tests tell a mistake."""

import subprocess
import sys
import tempfile
from pathlib import Path

from edges import call_records
from edges.all_edges import ALLCALLS_EDGES, EDGES

LIMIT = 20              # seconds for one edge
# Those whose records allcalls reads as domelink does.
PLAYED = [edge for edge in EDGES + ALLCALLS_EDGES
          if edge not in call_records.EDGES]


def wrong_end(program, edge):
    """Whether a program's listing of an edge is another than by hand."""
    right = "".join(line + "\n" for line in edge.lines).encode()
    try:
        done = subprocess.run([program], input=edge.data, capture_output=True,
                              timeout=LIMIT)
    except subprocess.TimeoutExpired:
        return True
    return done.returncode != 0 or done.stdout != right


def by_edges(mutant, edges=PLAYED):
    """The edges that tell a mistake in the plain Rust scheduler."""
    with tempfile.TemporaryDirectory() as folder:
        mutant.copied("docs/src", folder + "/src")
        program = folder + "/allcalls"
        built = subprocess.run(
            ["rustc", "--edition", "2021", "-C", "opt-level=0",
             "-C", "debug-assertions=off", "-A", "warnings",
             folder + "/src/allcalls.rs", "-o", program],
            capture_output=True, text=True)
        if built.returncode:
            raise ValueError("%s: %s" % (mutant.name, built.stderr[-300:]))
        return [edge.name for edge in edges if wrong_end(program, edge)]


def by_tests(mutant):
    """The tests by hand that tell a mistake in the second simulator."""
    with tempfile.TemporaryDirectory() as folder:
        mutant.copied("tests", folder + "/tests")
        done = subprocess.run(
            [sys.executable, "-B", "-m", "mutants.by_hand"],
            cwd=folder + "/tests", capture_output=True, text=True)
    if done.returncode:
        raise ValueError("%s: %s" % (mutant.name, done.stderr[-300:]))
    return done.stdout.splitlines()


def telling(mutant):
    rust = Path(mutant.path).suffix == ".rs"
    return by_edges(mutant) if rust else by_tests(mutant)


def missed(mutant):
    """What is wrong: that its test does not tell it, or None."""
    found = telling(mutant)
    if mutant.told in found:
        return None
    return "%r does not tell it; %s" % (
        mutant.told, "nothing does" if not found else
        "these do: " + ", ".join(found[:3]))


def one_edge(mutant):
    """The same, with the one edge alone."""
    edges = [edge for edge in PLAYED if edge.name == mutant.told]
    return not by_edges(mutant, edges) and "%r does not tell it" % mutant.told



"""All mistakes, and those that the gate makes."""

import shutil
from functools import partial

from driver.left_out import leave_out
from mutants import desk, images, scheduler
from mutants.tell import missed, one_edge

MUTANTS = scheduler.MUTANTS + desk.MUTANTS + images.MUTANTS
EACH = 6                # in the gate one of so many


def jobs(mutants):
    """A name for each, and whether its test tells it, with those that do."""
    for mutant in mutants:
        yield "%s, %s" % (mutant.path, mutant.name), partial(missed, mutant)


def tests(_):
    """Some of each table, by their own test alone where they are built."""
    rust, python = scheduler.MUTANTS[::EACH], MUTANTS[len(
        scheduler.MUTANTS)::EACH]
    if not shutil.which("rustc"):
        leave_out("rustc", "mistakes in the plain Rust scheduler", len(rust))
        rust = []
    for mutant in rust:
        yield "mutant: " + mutant.name, partial(one_edge, mutant)
    for mutant in python:
        yield "mutant: " + mutant.name, partial(missed, mutant)

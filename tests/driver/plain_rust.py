"""The plain Rust scheduler of docs/src as a third account: built here, with
its own tests."""

import subprocess
from pathlib import Path

from driver import progress
from driver.formats import ALLCALLS, DOMELINK
from driver.left_out import leave_out
from driver.suite import Suite

SOURCES = Path(__file__).resolve().parents[2] / "docs/src"
OWN_TESTS = 2


def has_rustc():
    try:
        return not subprocess.run(["rustc", "--version"],
                                  capture_output=True).returncode
    except FileNotFoundError:
        return False


def trouble(*words):
    """The end of what a command wrote if it failed, or None."""
    done = progress.run("plain Rust", words, stdout=subprocess.PIPE,
                        stderr=subprocess.STDOUT)
    return done.stdout[-400:] or "failed" if done.returncode else None


def build(source, program, *options):
    """A program from a source of docs/src: what went wrong, or None."""
    return trouble("rustc", "--edition", "2021", "-O", *options,
                   str(SOURCES / source), "-o", program)


def own_tests(suite, folder):
    tests = folder + "/tests"
    suite.test("the scheduler's own tests",
               build("scheduler.rs", tests, "--test") or trouble(tests))
    suite.test("the own tests of the check of the mesh",
               build("mesh.rs", tests, "--test") or trouble(tests))


def player(folder, name, source, form):
    """A suite; its program is built in the folder if that works."""
    suite = Suite(name, form=form)
    program = "%s/%s" % (folder, source)
    wrong = build(source + ".rs", program)
    if wrong:
        suite.test("%s.rs is compiled" % source, wrong)
    else:
        suite.command = [program]
    return suite


def suites(folder, only):
    """Its suites, one for each way to read records, or none where there is
    no rustc."""
    if not has_rustc():
        leave_out("rustc", "plain Rust", OWN_TESTS, ("domelink", "allcalls"))
        return []
    plain = player(folder, "plain Rust", "play", DOMELINK)
    if not only:
        own_tests(plain, folder)
    return [plain,
            player(folder, "plain Rust allcalls", "allcalls", ALLCALLS)]

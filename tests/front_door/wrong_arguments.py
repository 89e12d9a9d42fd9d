"""tests/run and bench/run with something wrong: one sentence, status 2."""

import os
import shutil
import sys
import tempfile
from pathlib import Path

from front_door.command import ROOT, start, trouble

PROGRAMS = "tools/build domelink allcalls domeplan domeshow dometrace"
BUILT = {                     # what tests/run needs, and what makes it
    "bin/domelink": PROGRAMS, "bin/allcalls": PROGRAMS,
    "bin/domeplan": PROGRAMS, "bin/domeshow": PROGRAMS,
    "bin/dometrace": PROGRAMS,
    "staticlib/libnazgolv.a": "tools/build nazgolv"}
MISSING = os.path.join(os.sep, "nowhere", "calls")

# Arguments of tests/run, and words of the sentence.
TESTS_RUN = [
    (["-5"], "COUNT"),
    (["0"], "COUNT has to be 1 or more"),
    (["many"], "COUNT"),
    (["1", "-1"], "SEED"),
    (["1", "2", "3"], "unrecognized"),
    (["--unknown"], "unrecognized"),
    (["--simulate", MISSING], MISSING + " can't be read"),
    (["--simulate", os.sep], "can't be read"),
    (["--write", "-1", MISSING], "a seed has to be"),
    (["--write", "1", MISSING], MISSING + " can't be written"),
    (["--program", MISSING], "no program at " + MISSING),
    (["--program", os.sep], "no program at " + os.sep),
    (["--allcalls", "--program", MISSING], "no program at " + MISSING),
    (["--allcalls", "--simulate", MISSING], MISSING + " can't be read"),
    (["--allcalls", "--write", "-1", MISSING], "a seed has to be"),
    (["--library", MISSING], "no library at " + MISSING),
    (["--library", os.sep], "no library at " + os.sep),
    (["--library", MISSING, "--program", MISSING], "not allowed with"),
    (["--library", MISSING, "--allcalls"], "--allcalls goes with"),
    (["--allcalls"], "--allcalls goes with"),
    (["--domeplan", "--program", MISSING], "no program at " + MISSING),
    (["--domeplan", "--simulate", MISSING], MISSING + " can't be read"),
    (["--domeplan", "--write", "-1", MISSING], "a seed has to be"),
    (["--domeplan"], "--domeplan goes with"),
    (["--domeplan", "--allcalls", "--simulate", MISSING], "not allowed with"),
    (["--departures"], "--departures goes with"),
    (["--departures", "--allcalls", "--write", "1", MISSING],
     "--departures goes with"),
    (["--numbers"], "--numbers goes with"),
    (["--numbers", "--departures", "--write", "1", MISSING],
     "goes with --write alone"),
    (["--resets"], "--resets goes with"),
    (["--resets", "--simulate", MISSING], "--resets goes with"),
    (["--resets", "--allcalls", "--write", "1", MISSING],
     "--resets goes with"),
    (["--resets", "--write", "-1", MISSING], "a seed has to be"),
    (["--bursts"], "--bursts goes with"),
    (["--bursts", "--allcalls", "--write", "1", MISSING],
     "--bursts goes with"),
    (["--bursts", "--resets", "--write", "1", MISSING], "goes with --write"),
    (["--pairs"], "--pairs goes with"),
    (["--pairs", "--allcalls", "--write", "1", MISSING],
     "--pairs goes with"),
    (["--pairs", "--write", "1", MISSING], "can't be written"),
    (["--ways"], "--ways goes with"),
    (["--ways", "--pairs", "--write", "1", MISSING], "goes with --write"),
    (["--ways", "--write", "1", MISSING], "can't be written"),
]
BENCH_RUN = [
    (["0"], "ROUNDS"),
    (["-3"], "ROUNDS"),
    (["few"], "ROUNDS"),
    (["1", "0"], "COUNT"),
    (["1", "2", "3"], "unrecognized"),
    (["--unknown"], "unrecognized"),
    (["--write"], "go with --report"),
    (["--gate", "1200"], "go with --report"),
    (["--report", "--gate", "0"], "--gate: has to be"),
    (["--report", "--bursts"], "not allowed with"),
]


def refused(script, arguments, says, root=ROOT, **options):
    """What is wrong with how a script refuses its arguments, or None."""
    ended = start([sys.executable, root / script, *arguments], **options)
    return trouble(ended, status=2, output=b"",
                   says="%s: " % script) or trouble(
                       ended, status=2, says=says)


def without(*commands):
    """bench/run where some commands are missing."""
    with tempfile.TemporaryDirectory() as folder:
        for command in {"rustc", "rt"} - set(commands):
            os.symlink(sys.executable, os.path.join(folder, command))
        return refused("bench/run", [], commands[0] + " is not on",
                       env=dict(os.environ, PATH=folder))


def without_built(name):
    """tests/run in a tree with one program missing, or the library."""
    with tempfile.TemporaryDirectory() as folder:
        root = Path(folder)
        for part in ("tests", "tools"):
            shutil.copytree(ROOT / part, root / part)
        target = root / "target"
        for built in map(target.joinpath, BUILT):
            built.parent.mkdir(parents=True, exist_ok=True)
            if built != target / name:
                os.symlink(sys.executable, built)
        return refused("tests/run", [], " at %s; `%s` makes it" % (
            target.resolve() / name, BUILT[name]), root)


def tests(programs):
    for script, table in (("tests/run", TESTS_RUN), ("bench/run", BENCH_RUN)):
        for arguments, says in table:
            yield (" ".join([script, *arguments]),
                   lambda script=script, arguments=arguments, says=says:
                   refused(script, arguments, says))
    for name in BUILT:
        yield ("tests/run without " + name,
               lambda name=name: without_built(name))
    yield "bench/run without rustc", lambda: without("rustc")
    yield "bench/run without rt", lambda: without("rt")
    yield ("tests/run --only with no such test",
           lambda: refused("tests/run", ["--program", programs["domelink"],
                                         "1", "--only", "no such test"],
                           "no test has"))

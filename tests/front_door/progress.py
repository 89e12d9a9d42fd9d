"""Lines that count while something takes long: on a terminal, and nowhere
else."""

import os
import pty
import re
import select
import shutil
import subprocess
import sys
import tempfile

from call_bytes import TICK, credit
from edges.edge_maker import BASE
from front_door.command import LIMIT, ROOT, Ended, start, trouble
from front_door.crate_names import depends, reached
from front_door.plan_tree import PlanTree
from front_door.play_tree import PlayTree, in_traced_trees
from front_door.tree import named

NOTHING_DONE = 2                # exit status of play and plan
CRATE_BY_CRATE = """\
echo 'fn model::rank: proved'
echo 'logic=proved functions=2 sum=1'
sleep 1.5
echo 'logic=proved functions=3 sum=1'
echo 'logic=not-proved'
sleep 1.5
"""
BUILDS = "echo 'all proved'\n"
FAILS = """\
line=1
while [ $line -le 30 ]; do
    echo "note $line"
    line=$((line + 1))
done
echo 'not proved' >&2
exit 1
"""
SAID = ["note %d" % line for line in range(1, 31)] + ["not proved"]


def written(master):
    """What is written to a terminal, up to its end."""
    text = b""
    while select.select([master], [], [], LIMIT)[0]:
        try:
            text += os.read(master, 4096)
        except OSError:         # nobody has the other end any more
            break
    return text.decode(errors="replace").replace("\r\n", "\n")


def on_a_terminal(words, **options):
    """How a command ends whose standard error is a terminal."""
    master, slave = pty.openpty()
    with tempfile.TemporaryFile() as output:
        process = subprocess.Popen(
            [str(word) for word in words], stdin=subprocess.DEVNULL,
            stdout=output, stderr=slave, **options)
        os.close(slave)
        errors = written(master)
        os.close(master)
        status = process.wait(timeout=LIMIT)
        output.seek(0)
        return Ended(status, output.read(), errors)


def seen(text):
    """What is left to be seen on a terminal: a line that is written over
    keeps what is not covered."""
    lines = []
    for line in text.split("\n"):
        shown = ""
        for piece in line.split("\r"):
            shown = piece + shown[len(piece):]
        lines.append(shown.rstrip())
    return lines


def wrong_lines(ended, counts, left):
    """What is wrong where each of these counts has to come up, and these
    lines are what is left at the end; or None."""
    missing = [count for count in counts if "\r" + count not in ended.errors]
    if ended.status or missing:
        return "status %d, no %s: %r" % (ended.status, missing,
                                         ended.errors[-300:])
    return seen(ended.errors) != left and "left: %r" % seen(ended.errors)


# ---- long files

def slowly(tree, command, *words):
    """How a command ends whose input stays open for some seconds after two
    ticks and a credit that is refused."""
    calls = tree.write("slow", BASE + 2 * TICK + credit(0, 4))
    return on_a_terminal([
        "sh", "-c", 'file=$1; shift; (cat "$file"; sleep 3) | "$@" -', "sh",
        calls, command, *words])


def counts_calls_on_a_terminal(tree):
    """Where nothing else goes there; the line is empty at the end."""
    for words in (["--summary"], ["--health"], ["--timeline", "/dev/null"]):
        ended = slowly(tree, tree.command, *words)
        left = [""]
        if words[0] == "--timeline":
            left = ["play: '/dev/null' is written", ""]
        # A credit that finds no cell is a fault for --health.
        ended.status -= words == ["--health"]
        wrong = wrong_lines(ended, ["play: call 3, slot 2 "], left)
        if wrong:
            return "%s: %s" % (words, wrong)
    return wrong_lines(slowly(tree, ROOT / "tools/calls", "--back"),
                       ["calls: call 3 "], [""])


# ---- ./play and ./plan while rt proves and builds

def environment(tree, script):
    """The tree's own, where the program is still to be built by this rt."""
    os.rename(tree.program, tree.root / "built")
    tree.rt(script)
    os.symlink(shutil.which("sleep"), tree.root / "bin/sleep")
    return dict(os.environ, PATH=tree.path)


def builds(tree):
    """The lines of an rt that proves all, and leaves the program."""
    return BUILDS + tree.leaves("built")


def crates_below(crate):
    """The crates that one stands on, itself among them, by crates.txt."""
    crates = depends()
    return [name for name in reached(crates, crate)
            if name in crates]                      # the kit has others


def first_line(tree):
    return ("%s: target/bin/%s is missing: it is proved and built first, "
            "%d crates, which may take some minutes; what rt says goes to "
            "target/build.log"
            % (tree.script, tree.crate, len(crates_below(tree.crate))))


def log(tree):
    return (tree.root / "target/build.log").read_text()


def counts_crates_on_a_terminal(tree):
    """And what rt says goes to the log."""
    ended = on_a_terminal(
        [tree.command, *tree.good],
        env=environment(tree, CRATE_BY_CRATE + builds(tree)))
    counts = ["%s: rt run in crates/%s: %d of %d crates proved, "
              % (tree.script, tree.crate, proved,
                 len(crates_below(tree.crate))) for proved in (1, 2)]
    return (wrong_lines(ended, counts, [first_line(tree), ""])
            or ended.output != tree.output and "other output"
            or " 3 of " in ended.errors and "other lines are counted"
            or log(tree).splitlines()[-1] != "all proved" and log(tree))


def built_libraries(tree):
    """Where rt has built the libraries below already, they are counted; but
    not one with a newer source, nor those above it."""
    for name in crates_below(tree.crate):
        tree.write("crates/%s/out/rlib/stamp" % name, "")
    os.utime(tree.write("crates/limits/src/lib.rt", "// a source\n"),
             (1 << 40, 1 << 40))
    crates = depends()
    again = [name for name in crates_below(tree.crate)
             if "limits" in reached(crates, name)]
    ended = on_a_terminal(
        [tree.command, *tree.good],
        env=environment(tree, "sleep 1.5\n" + builds(tree)))
    total = len(crates_below(tree.crate))
    return wrong_lines(ended, ["%s: rt run in crates/%s: %d of %d crates proved, "
                               % (tree.script, tree.crate, total - len(again),
                                  total)], [first_line(tree), ""])


def wrong_failure(tree, ended, lines):
    """What is wrong where rt's last 20 lines have to stand between the first
    line and a sentence that names the log, which has them all; or None."""
    if ended.status != NOTHING_DONE or ended.output or (
            lines[:21] != [first_line(tree)] + SAID[-20:]):
        return "status %d: %r" % (ended.status, lines)
    if log(tree).splitlines() != SAID:
        return "in the log: %r" % log(tree)
    says = ("rt run in crates/%s failed: nothing is done; target/build.log has "
            "all")
    return (len(lines) != 22 or says % tree.crate not in lines[21]) and (
        "%r" % lines[21:])


def failure_on_a_terminal(tree):
    ended = on_a_terminal([tree.command, *tree.good],
                          env=environment(tree, FAILS))
    return wrong_failure(tree, ended, seen(ended.errors)[:-1])


def failure_on_a_pipe(tree):
    ended = start([tree.command, *tree.good], env=environment(tree, FAILS))
    return wrong_failure(tree, ended, ended.errors.splitlines())


def no_count_on_a_pipe(tree):
    """One line, and no other until it is done; the folder of the log is made
    where it is missing."""
    env = environment(tree, builds(tree))
    shutil.rmtree(tree.root / "target")
    ended = start([tree.command, *tree.good], env=env)
    return trouble(ended, 0, tree.output, first_line(tree)) or (
        log(tree) != "all proved\n" and log(tree))


def log_that_takes_nothing(tree):
    """It is said before rt is started."""
    env = environment(tree, builds(tree))
    (tree.root / "target/build.log").mkdir()
    return trouble(start([tree.command, *tree.good], env=env), NOTHING_DONE,
                   b"", "target/build.log can't be written") or (
        tree.rt_words() and "rt was started")


# ---- tests/run and bench/run

def some_edges(program):
    """One edge, which is also played in pieces of six sizes."""
    return [sys.executable, ROOT / "tests/run", "--program", program, "0",
            "--only", "edge: a last record of 3 bytes"]


def tests_run_counts_on_a_terminal(programs):
    ended = on_a_terminal(some_edges(programs["domelink"]))
    return wrong_lines(ended, ["edges: 0 of 1", "files in pieces: 0 of 6"],
                       [""])


def tests_run_fails_on_a_terminal(programs):
    """Failures stand on lines of their own: cat is no player."""
    words = some_edges(shutil.which("cat"))
    ended = on_a_terminal(["sh", "-c", 'exec "$@" >&2', "sh", *words])
    failed = [line for line in seen(ended.errors) if "FAILED" in line]
    wrong = [line for line in failed if not line.startswith("FAILED cat, ")]
    return (not failed or wrong) and "lines %r" % wrong[:2]


def tests_run_is_silent_on_a_pipe(programs):
    return trouble(start(some_edges(programs["domelink"])))


def measured(starting):
    """bench/run of one question, with an rt that has nothing to do."""
    with tempfile.TemporaryDirectory() as folder:
        os.symlink(shutil.which("true"), os.path.join(folder, "rt"))
        path = folder + os.pathsep + os.environ.get("PATH", os.defpath)
        return starting([sys.executable, ROOT / "bench/run", "--counts", "1"],
                        env=dict(os.environ, PATH=path))


def bench_run_counts_on_a_terminal(programs):
    return wrong_lines(measured(on_a_terminal),
                       ["tools/build domeplan: 0 s", "count, rounds: 0 of 1"],
                       [""])


def bench_run_is_silent_on_a_pipe(programs):
    ended = measured(start)
    return trouble(ended) or (
        not re.search(rb"^count 16 8 +[0-9.]+ micro", ended.output, re.M)
        and "no figures")


RUNNING = (tests_run_counts_on_a_terminal, tests_run_fails_on_a_terminal,
           tests_run_is_silent_on_a_pipe, bench_run_counts_on_a_terminal,
           bench_run_is_silent_on_a_pipe)


def tests(programs):
    yield from in_traced_trees((counts_calls_on_a_terminal,))
    yield from named(PlayTree, (counts_crates_on_a_terminal,
                                no_count_on_a_pipe, failure_on_a_pipe),
                     programs)
    yield from named(PlanTree, (counts_crates_on_a_terminal, built_libraries,
                                failure_on_a_terminal,
                                log_that_takes_nothing), programs)
    for test in RUNNING:
        yield ("progress: " + test.__name__.replace("_", " "),
               lambda test=test: test(programs))

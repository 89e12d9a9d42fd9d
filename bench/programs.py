"""The programs that are measured: built, named, and played on call files."""

import hashlib
import os
import re
import shutil
import subprocess
import sys
import time
from datetime import datetime
from pathlib import Path

from driver import progress

ROOT = Path(__file__).resolve().parent.parent
PROVED = ("domelink", "single", "meshtime")
PLAIN = ("play", "calls", "single", "mesh", "copies")
RUSTC = ["rustc", "--edition", "2021", "-C", "opt-level=3",
         "-C", "codegen-units=1"]
LAST = 20               # lines shown of a check that failed


def stop(text):
    """Ends with a sentence: nothing is measured."""
    progress.line.clear()
    print("bench/run: " + text, file=sys.stderr)
    raise SystemExit(2)


def need(*commands):
    for command in commands:
        if not shutil.which(command):
            stop("%s is not on this machine's path, and compiles programs "
                 "that are measured" % command)


def proved(name):
    return ROOT / "target/bin" / name


def prove(*names):
    """Proves and compiles what is missing or older than its sources; stops
    where that fails."""
    words = ["tools/build", *names]
    if not progress.line.on and not all(proved(name).exists() for name in names):
        print("bench/run: %s: what is missing is proved and built first, which "
              "takes some minutes" % " ".join(words), file=sys.stderr)
    done = progress.run(" ".join(words), words, cwd=ROOT,
                        stdout=subprocess.PIPE, stderr=subprocess.STDOUT)
    if done.returncode != 0:
        for line in done.stdout.splitlines()[-LAST:]:
            print(line, file=sys.stderr)
        stop("%s failed with status %d: nothing is measured"
             % (" ".join(words), done.returncode))


def build(folder):
    """The plain Rust programs, and the proved ones where they are missing or
    their sources have changed."""
    for name in progress.counted("programs in plain Rust", PLAIN, len(PLAIN)):
        source = "docs/src/%s.rs" % name
        done = subprocess.run(RUSTC + [str(ROOT / source),
                                       "-o", str(folder / name)])
        if done.returncode != 0:
            stop("rustc doesn't compile %s: nothing is measured" % source)
    prove(*PROVED)


def said(*words):
    """What a command writes, or "unknown"."""
    try:
        done = subprocess.run(words, cwd=ROOT, text=True, capture_output=True)
    except FileNotFoundError:
        return "unknown"
    return done.stdout.strip() or "unknown"


def build_of(name):
    made = datetime.fromtimestamp(proved(name).stat().st_mtime)
    digest = hashlib.sha256(proved(name).read_bytes()).hexdigest()
    return "%s: built %s, sha256 %s" % (
        name, made.strftime("%Y-%m-%d %H:%M"), digest[:12])


def processors():
    """The processor's name, where the system tells it, and the number of
    processors."""
    try:
        text = Path("/proc/cpuinfo").read_text(errors="replace")
    except OSError:
        text = ""
    found = re.search(r"^model name\s*:\s*(.+)$", text, re.MULTILINE)
    name = found.group(1).strip() if found else "unknown"
    return "processor %s, number of processors %s" % (
        name, os.cpu_count() or "unknown")


def commit():
    return "commit " + said("git", "describe", "--always", "--dirty")


def builds():
    """What is measured and where: the commit, the proved programs, the
    compiler and the processors."""
    return [commit(), *map(build_of, PROVED),
            said("rustc", "--version"), processors()]


def in_rounds(sort, rounds):
    """So many rounds of measuring, which a line counts."""
    return progress.counted(sort + ", rounds", range(rounds), rounds)


def make(folder, kind, count, *options):
    """A call file of a kind."""
    path = folder / ("-".join((kind, str(count)) + options) + ".calls")
    with open(path, "wb") as out:
        subprocess.run([str(folder / "calls"), kind, str(count), *options],
                       stdout=out, stderr=subprocess.DEVNULL, check=True)
    return path


def played(program, path):
    """What a program writes of a call file."""
    with open(path, "rb") as source:
        return subprocess.run([str(program)], stdin=source, check=True,
                              stdout=subprocess.PIPE).stdout


def seconds(program, path):
    with open(path, "rb") as source:
        start = time.perf_counter()
        subprocess.run([str(program)], stdin=source, check=True,
                       stdout=subprocess.DEVNULL)
        return time.perf_counter() - start


def same_listings(pair, path):
    if played(pair[0], path) != played(pair[1], path):
        stop("%s: the listings differ" % path.name)


def fastest(folder, paths, rounds):
    """For each call file the best time of domelink and of plain Rust.  Files
    and programs alternate: the machine's slow times meet them all."""
    pair = (proved("domelink"), folder / "play")
    for path in paths:
        same_listings(pair, path)
    best = [[float("inf")] * len(pair) for _ in paths]
    for _ in in_rounds("call files", rounds):
        for times, path in zip(best, paths):
            for place, program in enumerate(pair):
                times[place] = min(times[place], seconds(program, path))
    return best

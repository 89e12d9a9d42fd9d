"""./dome play: runs in which no bound is passed, whoever is greedy or late;
and shows by chance beside the second simulator."""

import os
import re
import select
import signal
import subprocess
import sys
from collections import Counter

from front_door.command import LIMIT, ROOT, start, trouble
from front_door.dome_tree import DONE, NOT_DONE, in_trees, rows
from shows.comparison import compare
from shows.file_comparison import compare_files, run

SHOWS = 300             # compared in the gate
FILES = 200             # show files likewise
RUNS = 60               # shows of seeds that are played if they pass
REFUSALS = {"ok", "R 2", "R 3", "R 4", "R 5", "R 7", "R 25"}
THREE = """\
dome F=8 W=4 N=255
stream main from=0 to=63 share=2 burst=3
stream comet from=48 to=63 share=2
stream east from=0 to=7 share=3
stream row from=1 to=15 share=3
"""
NAMES = ("main", "comet", "east", "row")
ONE_LINK = b"ok\nlink 0 1 100001000c0004000200080001030001\n"
# Questions to domeshow and their answers, worked out by hand.
QUESTIONS = (
    (b"", b"? F, W or N is missing\n"),
    (b"\n", b"? F, W or N is missing\n"),
    (b"show 4 2", b"? F, W or N is missing\n"),
    (b"show 4 2 8", b"ok\n"),
    (b"show 0 0 0", b"R 3\n"),
    (b"show 4 2 8 0 1 1 2", b"? each stream has a source, a destination and a "
     b"share, and cells twice: the numbers after N are no multiple of five\n"),
    (b"show 4 2 8 0 1 1 2 3", ONE_LINK),
    (b"show 4 2 8 0 1 1 2 3\n", ONE_LINK),
    (b"show 4 2 8 0 1 1 2 3\n\n", b"? a number has a byte that is no digit\n"),
    (b"show  4", b"? a number is missing: words and numbers are set apart by "
     b"single spaces\n"),
    (b"show 4 x", b"? a number has a byte that is no digit\n"),
    (b"show 1234567890", b"? a number has more than nine digits\n"),
    # no stream uses a link twice, so of its usual cells over one link nothing
    # is asked; 8 cells are N, and 9 one more
    (b"show 4 2 8 0 1 1 0 9", b"R 7\nlink 0 1 R 7\n"),
    # from row 8, which is none of the mesh, up the column of board 1
    (b"show 4 2 8 64 1 1 2 3", b"R 4\n" + b"".join(
        b"link %d %d R 4\n" % (board, board - 8)
        for board in (9, 17, 25, 33, 41, 49, 57))),
    (b"show 4 2 8 56 64 1 2 3", b"R 4\nlink 56 64 R 4\n"),
    (b"show 4 2 8" + 3990 * b" ", b"? a number is missing: words and numbers "
     b"are set apart by single spaces\n"),
    (b"show 4 2 8" + 3991 * b" ", b"? the question has more than 4,000 "
     b"bytes\n"),
)


def in_bounds(found, kept):
    """Rule 25.5: what is wrong where these streams keep their premises, or
    None."""
    for name in NAMES:
        _, asked, granted, arrived, _, greatest, bound = found[name][:7]
        if (bound == "-") != (name not in kept):
            return "%s has the bound %s" % (name, bound)
        if bound != "-" and not (
                int(asked) == int(granted) >= int(arrived) > 0
                and int(greatest) <= int(bound)):
            return "%s: %s" % (name, found[name])
    return None


def play(tree, *words):
    ended = tree.start("play", "-", "--slots", "600", *words,
                       input=THREE.encode())
    return ended, trouble(ended, DONE) or None


def whoever_is_greedy_or_late(tree):
    for words, kept in (
            ((), NAMES),
            (("--greedy", "east"), ("main", "comet", "row")),
            (("--greedy", "east", "--greedy", "comet"), ("main", "row")),
            (("--late", "row"), ("main", "comet", "east")),
            (("--rate", "main=1", "--rate", "east=0.9"), ("comet", "row")),
            (("--greedy", "main", "--late", "row"), ("comet", "east"))):
        for seed in "123":
            ended, wrong = play(tree, "--seed", seed, *words)
            wrong = wrong or in_bounds(rows(ended), kept)
            if wrong:
                return "%s, seed %s: %s" % (words, seed, wrong)
    return None


def broken_off(tree):
    """A break of the whole group, as a terminal sends it, says how far the run
    came, and leaves no link behind."""
    terminal, errors = os.openpty()
    process = subprocess.Popen(
        [tree.command, "play", "-", "--slots", "10000000"], stderr=errors,
        stdin=subprocess.PIPE, stdout=subprocess.PIPE, start_new_session=True)
    os.close(errors)
    process.stdin.write(THREE.encode())
    process.stdin.close()
    heard = b""
    while b": slot " not in heard and select.select([terminal], [], [],
                                                    LIMIT)[0]:
        heard += os.read(terminal, 4096)
    os.killpg(process.pid, signal.SIGINT)
    output = process.stdout.read()
    status = process.wait(timeout=LIMIT)
    while select.select([terminal], [], [], 0.5)[0]:
        try:
            heard += os.read(terminal, 4096)
        except OSError:
            break                       # nobody has its other end
    os.close(terminal)
    process.stdout.close()
    last = heard.decode().replace("\r", "\n").rstrip().splitlines()[-1]
    return (status != NOT_DONE or output or not re.fullmatch(
        r"dome: broken off in slot \d+ of 10000000: nothing is printed", last)
            ) and "status %d, %r, %r" % (status, output, heard[-200:])


def one_seed_one_run(tree):
    one, other, third = (play(tree, "--seed", seed)[0].output
                         for seed in "557")
    return (one != other or one == third) and "seeds make no difference"


def a_late_board_costs_its_own_stream(tree):
    """It has fewer tiles then, and no other has."""
    usual = rows(play(tree)[0])
    late = rows(play(tree, "--late", "east")[0])
    fewer = {name for name in NAMES
             if int(late[name][3]) + 10 < int(usual[name][3])}
    return fewer != {"east"} and "fewer tiles of %s" % fewer


def the_flights(tree):
    """Each passes, and no bound is passed, greedy neighbours or not."""
    for name, greedy in (("ten", ("comet", "titles")),
                         ("case-study", ("south", "corner")),
                         ("case-study-2", ("grey3", "grey5")),
                         ("hotspot", ("s3", "s8")),
                         ("hotspot-quarters", ("q1-3", "q4-60")),
                         ("hotspot-halves", ("q2-5", "q3-41"))):
        words = [word for one in greedy for word in ("--greedy", one)]
        for more in ((), words):
            ended = tree.start("play", ROOT / "flights" / (name + ".dome"),
                               "--slots", "300", *more)
            found = rows(ended) if ended.status == DONE else {}
            kept = {one for one, row in found.items() if row[6] != "-"}
            if not found or kept != set(found) - set(greedy if more else ()):
                return "%s %s: %s" % (name, more, ended.errors or kept)
    return None


def reserved_and_no_more(tree):
    """Rules 22.7 and 22.8: streams that always have tiles are granted their
    share in each of 20 frames, and a tile arrives at most a frame for each hop
    and one more after the frame in which it is asked for."""
    for name in ("case-study-2", "hotspot", "hotspot-quarters",
                 "hotspot-halves"):
        show = ROOT / "flights" / (name + ".dome")
        checked = tree.start("check", show).output.decode().split("\n\n")[1]
        ended = tree.start("play", show, "--slots", "1280", "--rate", "1")
        for line in checked.splitlines()[1:]:
            one, _, _, hops, share, *_ = line.split()
            granted, arrived = map(int, rows(ended)[one][2:4])
            least = int(share) * (20 - int(hops) - 1)
            if granted != 20 * int(share) or not least <= arrived <= granted:
                return "%s, %s: %s" % (name, one, rows(ended)[one])
    return None


# A tile that came in slot 3 and waits still, with a bound of 11 slots: after
# 15 slots it isn't passed, and after 16 it is.
WAITS = """
from types import SimpleNamespace as Any
from dome.told import passed
one = Any(stream=Any(name="a"), flows=[Any(waiting=[3])], delays=[1],
          bound=Any(slots=11), keeps=lambda: True)
for slots in 15, 16:
    print(passed(Any(streams=[one], come_up={}), slots))
"""
WAITED = b"""[]
['stream a passed its bound: a tile took 12 slots, and the bound is 11']
"""


def a_tile_that_never_arrives(tree):
    return trouble(start([sys.executable, "-B", "-c", WAITS],
                         cwd=ROOT / "tools"), DONE, WAITED)


def questions_by_hand(tree):
    for question, answer in QUESTIONS:
        wrong = trouble(start([tree.program], input=question), DONE, answer)
        if wrong:
            return "%r: %s" % (question[:40], wrong)
    return None


def shows_by_chance(tree):
    """Rule 25.4: each refusal comes up, and no other."""
    came = Counter()
    for seed in range(1, SHOWS + 1):
        wrong, first = compare(seed, tree.program)
        came[first] += 1
        if wrong:
            return wrong
    return set(came) != REFUSALS and "only %s came up" % sorted(came)


def show_files_by_chance(tree):
    """The same plan files and index as the second simulator's, or refused with
    the same number."""
    came = Counter()
    for seed in range(1, FILES + 1):
        wrong, first = compare_files(seed)
        came[first] += 1
        if wrong:
            return wrong
    return set(came) != REFUSALS and "only %s came up" % sorted(came)


def runs_by_chance(tree):
    """Rule 25.5: no bound is passed, whoever is greedy or late, with tiles
    sent ahead or without."""
    kept = 0
    for seed in range(1, RUNS + 1):
        wrong, count = run(seed)
        kept += count
        if wrong:
            return wrong
    return not kept and "no stream kept its premises"


# A run of four slots on a terminal, each of which takes 0.4 seconds: it is
# told after 0.8 and 1.6 seconds where the run is, and at the end the line is
# blank.
COUNTS = """
import io, sys
from types import SimpleNamespace as Any
from dome import play
clock = [0.0]
play.time = Any(time=lambda: clock[0])
sys.stderr = terminal = io.StringIO()
terminal.isatty = lambda: True
def slot(number):
    clock[0] += 0.4
play.run(Any(play_slot=slot), 4)
print(repr(terminal.getvalue()))
"""
COUNTED = repr("\rdome: slot 1 of 4, 0 s \rdome: slot 3 of 4, 1 s \r"
               + 60 * " " + "\r") + "\n"


def a_line_that_counts(tree):
    return trouble(start([sys.executable, "-B", "-c", COUNTS],
                         cwd=ROOT / "tools"), DONE, COUNTED.encode())


def tests(programs):
    return in_trees((
        whoever_is_greedy_or_late, one_seed_one_run, broken_off,
        a_late_board_costs_its_own_stream, a_tile_that_never_arrives,
        the_flights, reserved_and_no_more, questions_by_hand,
        shows_by_chance, show_files_by_chance, runs_by_chance,
        a_line_that_counts), programs)

"""All tests, in their order."""

import itertools
import pkgutil
import tempfile
from functools import partial
from importlib import import_module

import front_door as front_door_package
from ahead import wrong_sendings
from demand3 import wrong_listings
from driver import (
    ahead_suite, cases, pair_suite, plain_rust, question_cases, round_trips,
    trace_suite, way_suite, wrong_answers)
from driver.ahead_suite import AheadSuite
from driver.c_side import c_side
from driver.formats import ALLCALLS
from driver.pair_suite import PairSuite
from driver.progress import counted
from driver.side_by_side import done
from driver.suite import Suite
from driver.tally import (
    BurstTally, DepartureTally, LendTally, NumberTally, QuestionTally,
    ResetTally, Tally)
from driver.way_suite import WaySuite
from edges import questions, refusals_page
from edges.all_edges import ALLCALLS_EDGES, EDGES
from generator import seeds
from images import self_tests
from mutants import all_mutants
from pairs import wrong_pairs
from ways import crossed_ways, crossings, wrong_ways


def found(package):
    """The modules of a folder that have tests; those of the C side, whose
    names begin with c_, are the C side's own."""
    names = sorted(each.name for each in pkgutil.iter_modules(package.__path__)
                   if not each.name.startswith("c_"))
    modules = [import_module("%s.%s" % (package.__name__, name))
               for name in names]
    return [module for module in modules if hasattr(module, "tests")]


def wanted(names, only):
    """The pairs of a name and something whose name has the text `only`."""
    return (pair for pair in names if not only or only in pair[0])


def test_all(suite, tests, only):
    """Tests that are no files: each gives what went wrong, or None."""
    for name, trouble in done(suite.name, wanted(tests, only)):
        suite.test(name, trouble)


# The checks of listings, pairs, ways, crossings, runs with sending ahead and
# answers: each sends back what it has to.
SENT_BACK = (("listing", wrong_listings), ("pair", wrong_pairs),
             ("way", wrong_ways), ("crossing", crossings),
             ("crossing", crossed_ways),
             ("sending", wrong_sendings), ("answers", wrong_answers))


def sent_back():
    for sort, check in SENT_BACK:
        for name, trouble in check.missed():
            yield "%s: %s" % (sort, name), trouble


def tables():
    """The page has each refusal, and each edge a name of its own."""
    missing = sorted(set(refusals_page.ALL) - refusals_page.numbers())
    yield ("docs: every refusal has an input",
           missing and "none for %s" % missing)
    for kind, edges in (("edge", EDGES + ALLCALLS_EDGES),
                        ("question", questions.EDGES)):
        names = [edge.name for edge in edges]
        twice = sorted({name for name in names if names.count(name) > 1})
        yield kind + ": no name stands twice", twice and ", ".join(twice)


def without_program(only):
    """The suite of what the tests themselves have to be."""
    suite = Suite("tests")
    tests = itertools.chain(sent_back(), tables())
    for name, trouble in counted(suite.name, wanted(tests, only)):
        suite.test(name, trouble)
    test_all(suite, self_tests.tests(), only)
    return suite


def front_door(programs, only):
    """The suite of ./play, ./plan, tests/run and bench/run."""
    suite = Suite("front door")
    paths = {program.name: program.command[0] for program in programs}
    test_all(suite, itertools.chain.from_iterable(
        subject.tests(paths) for subject in [*found(front_door_package),
                                             all_mutants]), only)
    return suite


def played(make, suites):
    """A case, and what came of it with each program."""
    case = make()
    return case, [suite.play(case) for suite in suites]


def play_cases(sort, suites, names, only, tally=None):
    """Each case of a sort through each program."""
    jobs = ((name, partial(played, make, suites))
            for name, make in wanted(names, only))
    for name, (case, outcomes) in done(sort, jobs):
        if tally:
            tally.add(case)
        for suite, outcome in zip(suites, outcomes):
            suite.add(name, outcome)


def play_files(suites, only, count, seed):
    """Files for every program.  The tally of the generated ones."""
    tally = Tally()
    play_cases("edges", suites, cases.edges(), only)
    play_cases("docs/REFUSALS.md", suites, cases.page(), only)
    play_cases("files in pieces", suites, cases.in_pieces(seed), only)
    play_cases("call files", suites,
               cases.generated(seeds.ANY, count, seed), only, tally)
    return tally


def play_departures(suites, only, count, seed):
    """Files with departures of all kinds.  Their tally."""
    tally = DepartureTally()
    play_cases("departures", suites,
               cases.generated(seeds.DEPARTURES, count, seed), only, tally)
    for suite in suites:
        if not only:
            suite.test("the files with departures come to 20 often",
                       tally.trouble())
    return tally


def play_numbers(suites, only, count, seed):
    """Files with quantum numbers of all kinds.  Their tally."""
    tally = NumberTally()
    play_cases("numbers", suites,
               cases.generated(seeds.NUMBERS, count, seed), only, tally)
    for suite in suites:
        if not only:
            suite.test("the files with numbers come to 24 often",
                       tally.trouble())
    return tally


def play_lends(suites, only, count, seed):
    """Files with lends.  The tally of the generated ones."""
    tally = LendTally()
    play_cases("edges", suites, cases.allcalls_edges(), only)
    play_cases("docs/REFUSALS.md", suites, cases.page(ALLCALLS), only)
    play_cases("files in pieces", suites, cases.others_in_pieces(seed), only)
    play_cases("lends", suites,
               cases.generated(seeds.LENDS, count, seed), only, tally)
    return tally


def play_resets(suites, only, count, seed):
    """Files with resets.  Their tally."""
    tally = ResetTally()
    play_cases("resets", suites,
               cases.generated(seeds.RESETS, count, seed), only, tally)
    return tally


def play_bursts(suites, only, count, seed):
    """Files with bursts.  The tally of the generated ones."""
    tally = BurstTally()
    play_cases("files in pieces", suites, cases.bursts_in_pieces(seed), only)
    play_cases("bursts", suites,
               cases.generated(seeds.BURSTS, count, seed), only, tally)
    for suite in suites:
        if not only:
            suite.test("bursts of every length, and every answer in them",
                       tally.trouble())
    return tally


def play_programs(suites, only, count, seed):
    """Each file through each program that reads it, and the totals if nothing
    is left out.  The tallies."""
    others = [suite for suite in suites if suite.form is ALLCALLS]
    tallies = [play_files(suites, only, count, seed),
               play_departures(suites, only, count, seed),
               play_numbers(suites, only, count, seed)]
    if others:
        tallies += [play_lends(others, only, count, seed),
                    play_resets(others, only, count, seed),
                    play_bursts(others, only, count, seed)]
    for suite in suites:
        if not only:
            suite.totals()
    return tallies


def play_judged(make, sort, names, suites, only):
    """Cases that are judged from listings alone, through each program that
    reads allcalls' records, and the totals if nothing is left out.  Their
    suites."""
    suites = [make(suite) for suite in suites
              if suite.form is ALLCALLS and suite.command]
    play_cases(sort, suites, names, only)
    for suite in suites:
        if not only:
            suite.totals()
    return suites


def play_pairs(suites, only, count, seed):
    """Pairs of runs."""
    return play_judged(PairSuite, "pairs", pair_suite.seeds(count, seed),
                       suites, only)


def play_ways(suites, only, count, seed):
    """Ways over several links."""
    return play_judged(WaySuite, "ways", way_suite.cases(count, seed),
                       suites, only)


def play_ahead(suites, only, count, seed):
    """Runs without and with tiles sent ahead."""
    return play_judged(AheadSuite, "sent ahead",
                       ahead_suite.seeds(count, seed), suites, only)


def play_questions(suite, only, count, seed):
    """Questions of the show editor, and the totals if nothing is left out.
    The tally of the generated ones."""
    tally = QuestionTally()
    play_cases("questions", [suite], itertools.chain(
        question_cases.edges(), question_cases.page(), question_cases.ends(),
        question_cases.every_room(), question_cases.every_way(),
        question_cases.every_count(),
        question_cases.in_pieces(seed), question_cases.many_lines(seed)), only)
    play_cases("files of questions", [suite],
               question_cases.seeds(count, seed), only, tally)
    test_all(suite, round_trips.tests(suite, seed), only)
    if not only:
        suite.totals()
    return tally


def play_traces(suite, only, count, seed):
    """Edges and files of every sort through dometrace, and the totals if
    nothing is left out."""
    play_cases("traces", [suite], itertools.chain(
        trace_suite.edges(), trace_suite.in_pieces(seed),
        trace_suite.generated(count, seed)), only)
    if not only:
        suite.totals()


def c_suites(library, folder, only, count, seed):
    """The suites of the C side, or none where there is no C compiler."""
    side = c_side(library, folder)
    if not side:
        return []
    tests = side.tests(count, seed)
    if only and not side.own.failed:
        side.own.passed = 0     # that it is built is no test that is asked for
    test_all(side.own, tests, only)
    return side.suites


def play_library(library, only, count, seed):
    """The C side alone, over another library.  The suites and the tallies."""
    with tempfile.TemporaryDirectory() as folder:
        suites = c_suites(library, folder, only, count, seed)
        tallies = play_programs(
            [suite for suite in suites if suite.command], only, count, seed)
    return suites, tallies


def play_all(domelink, allcalls, domeplan, dometrace, library, only, count,
             seed):
    """All tests, those of the programs first.  The suites and the tallies."""
    apart = [without_program(only),
             front_door((domelink, allcalls, domeplan), only)]
    with tempfile.TemporaryDirectory() as folder:
        players = [domelink, allcalls, *plain_rust.suites(folder, only)]
        programs = players + c_suites(library, folder, only, count, seed)
        tallies = play_programs(
            [suite for suite in programs if suite.command], only, count, seed)
        in_pairs = play_pairs(players, only, count, seed)
        on_ways = play_ways(players, only, count, seed)
        sent_ahead = play_ahead(players, only, count, seed)
    play_traces(dometrace, only, count, seed)
    tallies += [in_pairs[0].tally, on_ways[0].tally, sent_ahead[0].tally,
                play_questions(domeplan, only, count, seed)]
    return (programs + in_pairs + on_ways + sent_ahead
            + [domeplan, dometrace] + apart, tallies)

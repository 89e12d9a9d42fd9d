"""The sorts of call files, a table each: kinds of traffic with the fewest and
the most calls of a file, and the order in which seeds take them.

Those with lends, resets or bursts are for programs that read allcalls'
records.  Another kind is a line of a table."""

from generator import plan_faults
from generator.lends import end_in_lends
from generator.sorts import LONG, Sort
from generator.traffic import (
    asking_until_refused, bursts_mixed, bursts_round, bursts_until_refused,
    dense_flights, departures_mixed, departures_until_refused, late_credits,
    lends_and_late_credits, lends_every_slot, lends_in_turn, lends_mixed,
    lends_until_refused, mixed_calls, mostly_ticks, numbers_mixed,
    numbers_round, numbers_until_refused, random_bytes, resets_between_lends,
    resets_mixed, resets_nearly_quiet, resets_until_refused,
    resets_when_quiet, small_frames, two_boards)

AT_LENGTH = (4000, 4000)        # calls of a long file


def long_files(kinds, calls=AT_LENGTH):
    return {kind: calls for kind in kinds}


def chosen_faults(dice, place):
    """Single faults come one after the other, so that many seeds have each;
    between them come two faults at once, to try the order of the tests."""
    if place % 3 < 2:
        single = place // 3 * 2 + place % 3
        return [plan_faults.SINGLE[single % len(plan_faults.SINGLE)]]
    return plan_faults.two_faults(dice)


def wrong_plan(dice, place):
    """A plan with one fault or two."""
    return plan_faults.wrong_plan(dice, chosen_faults(dice, place))


def often_lends(dice, kind, file):
    """Half of the files end in lends, besides the short ones."""
    if kind != "short" and dice.chance(50):
        end_in_lends(dice, file)


ANY = Sort(
    "", {
        "dense": (dense_flights.sixteen_flows, 600, 3000),
        "one flow": (dense_flights.one_flow, 400, 2000),
        "late credits": (late_credits.late_credits, 200, 2000),
        "small frames": (small_frames.small_frames, 50, 1200),
        "mostly ticks": (mostly_ticks.mostly_ticks, 100, 1500),
        "until refused": (asking_until_refused.until_refused, 50, 1500),
        "mixed": (mixed_calls.mixed, 100, 1500),
        "mostly odd": (mixed_calls.mostly_odd, 100, 600),
        "random bytes": (random_bytes.random_records, 0, 400),
        "short last record": (random_bytes.short_last_record, 0, 0),
    }, (
        "dense", "wrong plan", "late credits", "small frames", "wrong plan",
        "until refused", "mostly odd", "wrong plan", "mixed", "random bytes",
        "wrong plan", "until refused", "late credits", "wrong plan",
        "one flow", "mostly ticks", "wrong plan", "until refused",
        "short last record", "wrong plan", "small frames", "until refused",
        LONG),
    long={
        **long_files(("dense", "until refused", "late credits"),
                     (20000, 24999)),
        "mostly ticks": (100000, 104999),       # more than 65,536 ticks
        **long_files(("mixed", "small frames", "one flow"), (20000, 24999))},
    own={"wrong plan": wrong_plan})

DEPARTURES = Sort(
    "departures", {
        "any frames": (departures_mixed.any_frames, 100, 700),
        "small frames": (departures_mixed.small_frames, 50, 700),
        "few cells": (departures_mixed.few_cells, 100, 700),
        "dense": (departures_mixed.dense, 200, 700),
        "two boards": (two_boards.two_boards, 100, 900),
        "until refused": (departures_until_refused.until_refused, 50, 700),
    }, (
        "two boards", "any frames", "few cells", "small frames",
        "until refused", "two boards", "dense", "few cells", "two boards",
        "small frames", "until refused", "any frames", LONG),
    long=long_files(("two boards", "small frames", "any frames",
                     "until refused", "few cells", "dense")))

# Files that go round have more than 1,024 grants of one flow, or of two.
NUMBERS = Sort(
    "numbers", {
        "any frames": (numbers_mixed.any_frames, 100, 700),
        "small frames": (numbers_mixed.small_frames, 50, 700),
        "dense": (numbers_mixed.dense, 200, 700),
        "until refused": (numbers_until_refused.until_refused, 50, 700),
        "round": (numbers_round.one_flow, 0, 0),
        "two round": (numbers_round.two_flows, 0, 0),
    }, (
        "any frames", "round", "until refused", "small frames", "dense",
        "any frames", "until refused", "two round", "small frames",
        "any frames", "until refused"))

LENDS = Sort(
    "lends", {
        "every slot": (lends_every_slot.any_frames, 100, 700),
        "small frames": (lends_every_slot.small_frames, 50, 700),
        "sixteen flows": (lends_every_slot.sixteen_flows, 200, 700),
        "in turn": (lends_in_turn.any_frames, 200, 900),
        "sixteen in turn": (lends_in_turn.sixteen_flows, 300, 900),
        "late credits": (lends_and_late_credits.late_credits, 100, 700),
        "full later": (lends_and_late_credits.full_later, 100, 700),
        "mixed": (lends_mixed.mixed, 100, 700),
        "until refused": (lends_until_refused.until_refused, 50, 500),
        "random bytes": (lends_mixed.random_records, 20, 300),
        "short": (lends_mixed.short_file, 0, 30),
    }, (
        "every slot", "late credits", "full later", "mixed", "small frames",
        "until refused", "short", "sixteen flows", "late credits",
        "full later", "random bytes", "small frames", "until refused",
        "short", "every slot", "mixed", "in turn", "sixteen in turn",
        "in turn", LONG),
    long=long_files(("every slot", "late credits", "small frames",
                     "full later", "mixed", "until refused", "sixteen flows",
                     "in turn", "sixteen in turn")),
    ends=often_lends, other_calls=True)

RESETS = Sort(
    "resets", {
        "quiet": (resets_when_quiet.any_frames, 100, 700),
        "small frames": (resets_when_quiet.small_frames, 50, 700),
        "sixteen flows": (resets_when_quiet.sixteen_flows, 200, 700),
        "nearly quiet": (resets_nearly_quiet.nearly_quiet, 100, 700),
        "between lends": (resets_between_lends.between_lends, 100, 700),
        "until refused": (resets_until_refused.until_refused, 50, 600),
        "mixed": (resets_mixed.mixed, 100, 700),
        "random bytes": (resets_mixed.random_records, 20, 300),
        "short": (resets_mixed.short_file, 0, 30),
    }, (
        "quiet", "nearly quiet", "small frames", "until refused", "mixed",
        "nearly quiet", "short", "sixteen flows", "small frames",
        "until refused", "random bytes", "quiet", "between lends", LONG),
    long=long_files(("quiet", "nearly quiet", "until refused", "small frames",
                     "mixed", "between lends")),
    other_calls=True)

# A file that goes round has more than 1,024 grants of one flow.
BURSTS = Sort(
    "bursts", {
        "mixed": (bursts_mixed.mixed, 20, 200),
        "credited": (bursts_mixed.credited, 20, 200),
        "one flow": (bursts_mixed.one_flow, 20, 200),
        "around resets": (bursts_mixed.around_resets, 20, 200),
        "until refused": (bursts_until_refused.until_refused, 20, 300),
        "cut off": (bursts_mixed.cut_off, 0, 20),
        "round": (bursts_round.round_again, 0, 0),
    }, (
        "mixed", "credited", "cut off", "around resets", "until refused",
        "one flow", "credited", "cut off", "around resets", "mixed",
        "until refused", "round"),
    other_calls=True)

SORTS = (ANY, DEPARTURES, NUMBERS, LENDS, RESETS, BURSTS)

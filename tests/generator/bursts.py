"""Bursts of several sorts, also wrong ones.  A word is a function that makes
it when those before it have been answered, so that it can carry its flow's
next number.
"""

from functools import partial

import call_bytes
from generator.numbers import number, weighted
from generator.odd_calls import odd_word

MOST = 20               # words of a burst; 16 of them are handled


def some_count(dice):
    """Any count, often one at a border."""
    return dice.pick([0, 1, 15, 16, 16, 17, MOST, dice.below(MOST + 1),
                      dice.below(MOST + 1), dice.below(MOST + 1)])


def some_flows(dice, file):
    return [dice.below(file.flows) for _ in range(some_count(dice))]


def words_of(file, flows):
    """A word of each flow."""
    return [partial(file.word, flow) for flow in flows]


def of_any_flows(dice, file):
    return words_of(file, some_flows(dice, file))


def of_one_flow(dice, file):
    return words_of(file, [dice.below(file.flows)] * some_count(dice))


def with_departures(dice, file):
    return [partial(file.word, flow, dice.below(file.slots))
            for flow in some_flows(dice, file)]


def wrong_number(dice, file, flow, kinds):
    return lambda: file.word(flow, quantum=number(dice, file, flow, kinds))


def with_wrong_numbers(dice, file):
    """Some words have another number, or each as if those before it were
    granted."""
    flows = some_flows(dice, file)
    if dice.chance(20):
        return as_if_granted(file, flows)
    kinds = weighted(dice)
    return [wrong_number(dice, file, flow, kinds) if dice.chance(40) else word
            for flow, word in zip(flows, words_of(file, flows))]


def as_if_granted(file, flows):
    """Numbers that are fixed before the burst: right up to a refusal."""
    first = [file.quantum(flow) for flow in range(file.flows)]
    return [partial(file.word, flow, quantum=(
                first[flow] + flows[:place].count(flow)) % 1024)
            for place, flow in enumerate(flows)]


def with_odd_words(dice, file):
    """Words of which some are refused by their own tests."""
    def odd():
        return int.from_bytes(odd_word(dice, file)[1:], "little")
    return [odd if dice.chance(30) else word
            for word in of_any_flows(dice, file)]


def some_burst(dice, file):
    make = dice.pick([of_any_flows, of_any_flows, of_one_flow,
                      with_departures, with_wrong_numbers, with_odd_words])
    file.burst(make(dice, file))


def broken_burst(dice, file):
    """A count above 20 or a filler that is not 0: its five bytes alone are
    used up."""
    filler = dice.between(1, 255)
    record = dice.pick([
        call_bytes.burst([], count=MOST + 1),
        call_bytes.burst([], count=dice.between(MOST + 1, 255)),
        call_bytes.burst([], (filler, 0, 0), dice.below(MOST + 1)),
        call_bytes.burst([], (0, filler, 0), dice.below(MOST + 1)),
        call_bytes.burst([], (0, 0, filler), dice.below(MOST + 1))])
    file.record(record)


def cut_burst(dice, file):
    """A burst whose words the file's end cuts off, or its record."""
    words = as_if_granted(file, [dice.below(file.flows)
                                 for _ in range(dice.between(1, MOST))])
    whole = call_bytes.burst([word() for word in words])
    file.last_bytes(whole[:dice.between(1, len(whole) - 1)])

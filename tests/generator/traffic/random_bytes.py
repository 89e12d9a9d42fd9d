"""Random bytes for records, and files whose last record is short."""

import call_bytes
from generator import good_plans
from generator.call_file import CallFile
from generator.odd_calls import odd_credit, odd_word
from generator.traffic.mixed_calls import mixed


def random_records(dice, calls):
    """Random bytes after a good plan, many with a known kind in front."""
    file = CallFile(good_plans.any_plan(dice))
    known = dice.pick([0, 50, 90])
    for _ in range(calls):
        record = bytearray(dice.data(5))
        if dice.chance(known):
            record[0] = dice.between(1, 3)
        if dice.chance(known):
            record[4] = 0
        file.record(bytes(record))
    file.last_bytes(dice.data(dice.below(5)))
    return file


def short_last_record(dice, calls):
    """A few mixed calls, then a last record of 1 to 4 bytes."""
    file = mixed(dice, dice.pick([0, 0, 1, 20]))
    last = dice.pick([call_bytes.TICK, odd_credit(dice, file),
                      odd_word(dice, file), dice.data(5)])
    file.last_bytes(last[:dice.between(1, 4)])
    return file

"""Links that fall quiet: cells that come back, slots that go by, and resets on
the way."""

import call_bytes
from generator.lends import some_lend
from generator.numbers import number, one_behind, since_reset
from simulator.reset import quiet

OTHERS = (since_reset, since_reset, one_behind)     # numbers of quanta


def broken_reset(dice):
    """A filler that is not 0."""
    record = bytearray(call_bytes.RESET)
    record[dice.between(1, 4)] = dice.pick([1, 255, dice.between(1, 255)])
    return bytes(record)


def some_reset(dice, file):
    """A reset, one in twenty with a filler; now and then a second one."""
    if dice.chance(5):
        file.record(broken_reset(dice))
    file.reset()
    if dice.chance(15):
        file.reset()


def give_back(file, flow):
    """A credit from the earliest slot on that it can be dated.  Whether the
    flow held a cell at the end of the window, and so gave one back."""
    after = file.now() + 1
    held = file.link.from_slot(after, file.link.holdings(flow))
    ahead = len(held)
    while ahead > 0 and held[ahead - 1]:
        ahead -= 1
    return ahead < len(held) and file.give(flow, after + ahead)


def return_cells(dice, file, tries):
    """Every cell comes back; of a hundred credits, so many have a reset after
    them."""
    for flow in range(file.flows):
        while give_back(file, flow):
            if dice.chance(tries):
                file.reset()


def wait_until_quiet(dice, file, tries):
    """Slots go by until a reset is granted; it is tried in so many slots of a
    hundred before that."""
    while not quiet(file.link):
        if dice.chance(tries):
            file.reset()
        file.tick()


def in_the_same_slot(dice, file):
    """Lends, requests and resets right after a reset; one request in four has
    another number, as the one that would begin afresh."""
    for _ in range(dice.pick([0, 1, 2, 4])):
        act = dice.below(5)
        if act < 2:
            some_lend(dice, file)
        elif act < 4:
            flow = dice.below(file.flows)
            if dice.chance(25):
                file.ask(flow, quantum=number(dice, file, flow, OTHERS))
            else:
                file.ask(flow)
        else:
            file.reset()

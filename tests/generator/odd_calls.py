"""Calls that are wrong somewhere, or stand at a border."""

import call_bytes


def odd_word(dice, file):
    """A request with one or two fields off, or any 32 bits at all."""
    if dice.chance(20):
        return b"\x01" + dice.data(4)
    flow = dice.below(file.flows)
    destination = file.plan.destination(flow)
    departure = dice.pick([0, file.slots - 1, dice.below(file.slots)])
    for _ in range(dice.between(1, 2)):
        fault = dice.below(3)
        if fault == 0:
            flow = dice.pick([file.flows, 63, dice.below(64)])
        elif fault == 1:
            destination = dice.below(64)
        else:
            departure = dice.pick([file.slots, 1023, file.slots - 1,
                                   dice.below(1024)])
    quantum = dice.below(1024)
    if flow < file.flows and dice.chance(70):
        quantum = file.quantum(flow)
    return call_bytes.request(destination, min(flow, 63), quantum,
                              min(departure, 1023))


def odd_credit(dice, file):
    """A credit at a border: of the flows, of T, of the head frame."""
    flow = dice.below(file.flows)
    if dice.chance(25):
        flow = dice.pick([file.flows, 63, 64, 255, dice.below(256)])
    now = file.now()
    head = now - now % file.plan.frame_slots
    position = dice.pick([
        now % file.slots, (now + 1) % file.slots, head % file.slots,
        (head - 1) % file.slots, file.last_slot() % file.slots,
        file.slots - 1, file.slots, 65535, dice.below(65536),
        dice.below(file.slots), 256 + dice.below(file.slots)])
    return call_bytes.credit(flow, position)


def broken_record(dice, file):
    """An unknown kind or a nonzero filler."""
    choice = dice.below(3)
    if choice == 0:
        kind = dice.pick([0, 4, 5, 128, 255, dice.between(4, 255)])
        rest = dice.pick([bytes(4), dice.data(4), odd_credit(dice, file)[1:]])
        return bytes([kind]) + rest
    if choice == 1:
        filler = dice.pick([1, 255, dice.between(1, 255)])
        return call_bytes.credit(dice.below(file.flows + 1),
                              dice.below(file.slots), filler)
    record = bytearray(call_bytes.TICK)
    record[dice.between(1, 4)] = dice.between(1, 255)
    return bytes(record)


def odd_call(dice, file):
    file.record(dice.pick([odd_word, odd_credit, broken_record])(dice, file))

"""Plans with one fault or two at once, and both ends of every limit."""

import call_bytes
from generator import good_plans


def field(name, *values):
    """Faults that put a value into a header field."""
    return [("%s %d" % (name, value),
             lambda plan, dice, value=value: setattr(plan, name, value))
            for value in values]


def entry_byte(place, *values):
    """Faults that put a value into a byte of some entry."""
    def change(plan, dice, value):
        dice.pick(plan.entries)[place] = value
    return [("entry byte %d is %d" % (place, value),
             lambda plan, dice, value=value: change(plan, dice, value))
            for value in values]


def add_to_length(step):
    """A stated length that is off, with the bytes for it if it is more."""
    def change(plan, dice):
        plan.length = 12 + 4 * len(plan.entries) + step
        plan.tail = bytes([1, 1, 2, 3])[:max(0, step)]
    return change


def add_to_flows(step):
    def change(plan, dice):
        plan.flows = len(plan.entries) + step
    return change


def no_flows(plan, dice):
    plan.entries = []


def cut(plan, dice):
    plan.keep = dice.below(12 + 4 * len(plan.entries))


def frame_over(plan, dice):
    """F and W in their ranges, T just above 256."""
    plan.frame_slots, plan.window_frames = dice.pick(
        [(64, 5), (52, 5), (43, 6), (37, 7), (33, 8), (64, 8)])


def frame_long(plan, dice):
    """F one too many, T in its range."""
    plan.frame_slots, plan.window_frames = 65, dice.between(2, 3)


def frame_full(plan, dice):
    """The largest windows that pass."""
    plan.frame_slots, plan.window_frames = dice.pick(
        [(64, 4), (64, 2), (51, 5), (42, 6), (36, 7), (32, 8)])


def share_over(plan, dice):
    dice.pick(plan.entries)[0] = min(255, plan.frame_slots + 1)


def same_ends(plan, dice):
    entry = dice.pick(plan.entries)
    entry[3] = entry[2]


def more_flows(plan, count):
    """Entries up to a count, with pairs of their own."""
    nodes = 40
    while len(plan.entries) < count:
        plan.entries.append([1, 1, nodes, nodes + 1])
        nodes += 1
        plan.buffer = min(65535, plan.buffer + 1)


def pair_again(plan, dice):
    more_flows(plan, 2)
    place = dice.below(len(plan.entries))
    other = dice.below(len(plan.entries))
    if place == other:
        other = (place + 1) % len(plan.entries)
    plan.entries[place][2:] = plan.entries[other][2:]


def shares_add_to(step):
    """Shares that add to F plus the step."""
    def change(plan, dice):
        more_flows(plan, 2)
        rest = sum(entry[0] for entry in plan.entries[1:])
        plan.frame_slots = min(64, max(plan.frame_slots, rest + 1))
        plan.window_frames = min(plan.window_frames, 256 // plan.frame_slots)
        plan.entries[0][0] = max(0, plan.frame_slots - rest + step)
    return change


def shares_of_256(plan, dice):
    """Shares of 64 that add to a multiple of 256."""
    more_flows(plan, 4 * dice.between(1, 4))
    del plan.entries[len(plan.entries) // 4 * 4:]
    plan.frame_slots, plan.window_frames = 64, dice.between(2, 4)
    for entry in plan.entries:
        entry[0] = 64


def cells_add_to(step):
    """Cells that add to N plus the step."""
    def change(plan, dice):
        cells = sum(entry[1] for entry in plan.entries)
        plan.buffer = max(0, cells - step)
    return change


def sixteen(plan, dice):
    more_flows(plan, 16)
    plan.frame_slots = 64
    plan.window_frames = dice.between(2, 4)


def seventeen(plan, dice):
    more_flows(plan, 17)


def reversed_pair(plan, dice):
    """Equal nodes the other way round are another pair."""
    more_flows(plan, 2)
    plan.entries[0][2:] = reversed(plan.entries[1][2:])


# By the refusal that each is meant for, on a good plan; 0 means limits that
# most plans still pass.  What a changed plan really gives is the simulator's
# business.
FAULTS = {
    0: (field("length", 16, 76)
        + field("flows", 1, 16)
        + field("frame_slots", 1, 64)
        + field("window_frames", 2, 8)
        + field("buffer", 1, 4095)
        + entry_byte(1, 255) + entry_byte(2, 0, 63) + entry_byte(3, 0, 63)
        + [("T full", frame_full), ("reversed pair", reversed_pair),
           ("shares add to F", shares_add_to(0)),
           ("cells add to N", cells_add_to(0)), ("16 flows", sixteen)]),
    1: (field("length", 0, 11, 77, 80, 268, 65535)
        + field("keep", 0, 1, 2, 11, 12)
        + [("cut", cut), ("17 flows", seventeen)]),
    2: (field("length", 12, 13, 75)
        + [("longer by %d" % step, add_to_length(step)) for step in (1, 3, 4)]
        + [("shorter by %d" % step, add_to_length(-step)) for step in (1, 4)]
        + field("flows", 0, 17, 256, 257, 65535)
        + [("no flows", no_flows)]
        + [("one flow more", add_to_flows(1)),
           ("one flow less", add_to_flows(-1)),
           ("256 flows more", add_to_flows(256))]
        + field("offset", 0, 11, 13, 16, 268, 65535)),
    3: (field("frame_slots", 0, 257, 65535)
        + field("window_frames", 0, 1, 9, 258, 65535)
        + field("buffer", 0, 4096, 65535)
        + [("T over", frame_over), ("F over", frame_long)]),
    4: (entry_byte(0, 0, 255) + entry_byte(1, 0)
        + entry_byte(2, 64, 255) + entry_byte(3, 64, 255)
        + [("share over F", share_over), ("same ends", same_ends)]),
    5: [("pair again", pair_again)],
    6: [("shares add to F + 1", shares_add_to(1)),
        ("shares of 64", shares_of_256)],
    7: [("cells add to N + 1", cells_add_to(1))],
}
SINGLE = [fault for number in sorted(FAULTS) for fault in FAULTS[number]]


def two_faults(dice):
    """Faults for two different refusals, the earlier test's made last."""
    first = dice.between(1, 7)
    second = dice.between(1, 6)
    second += second >= first
    return [dice.pick(FAULTS[number])
            for number in sorted((first, second), reverse=True)]


def wrong_plan(dice, faults):
    """The bytes of a plan with faults, and of some calls after it in case it
    is accepted."""
    plan = good_plans.any_plan(dice)
    for _, change in faults:
        change(plan, dice)
    calls = [call_bytes.TICK, call_bytes.credit(0, 1)]
    if plan.entries:
        destination = plan.entries[0][3] & 63
        calls += [call_bytes.request(destination, 0)] * dice.below(4)
    if plan.keep is not None:       # a cut plan is the end of the file
        calls = []
    return plan.data() + b"".join(calls)

"""Plans as numbers, for whoever asks for them: good ones, broken ones, and
numbers that are too wide for their fields."""

from generator import good_plans, plan_faults

WIDE = (256, 65536, 2 ** 24)    # added to a number: the same when cut off
NINES = 999999999               # the largest number of a question


def header_number(name, *values):
    """Faults that put a value into F, W or N, or add to it."""
    def add(step):
        return lambda plan, dice: setattr(
            plan, name, getattr(plan, name) + step)
    return (plan_faults.field(name, *values, NINES)
            + [("%s + %d" % (name, step), add(step)) for step in WIDE])


def entry_number(place, *values):
    """The same for a number of some entry."""
    def add(step):
        def change(plan, dice):
            dice.pick(plan.entries)[place] += step
        return change
    return (plan_faults.entry_byte(place, *values, NINES)
            + [("entry number %d + %d" % (place, step), add(step))
               for step in WIDE])


def flow_count(count):
    def change(plan, dice):
        del plan.entries[count:]
        plan_faults.more_flows(plan, count)
    return "%d flows" % count, change


TOO_WIDE = (header_number("frame_slots", 300)
            + header_number("window_frames", 300)
            + header_number("buffer", 70000)
            + entry_number(0, 300) + entry_number(1, 256, 300)
            + entry_number(2, 300) + entry_number(3, 300))
COUNTS = [flow_count(count) for count in (0, 16, 17, 18, 40, 257, 272)]

# By the refusal that each is meant for: the faults of a plan's bytes that are
# faults of its numbers too.  Those at the limits most plans still pass.
FAULTS = {number: plan_faults.FAULTS[number] for number in range(3, 8)}
FAULTS[2] = COUNTS
AT_LIMITS = [fault for fault in plan_faults.FAULTS[0]
             if not fault[0].startswith(("length", "flows"))]


def good(dice):
    make = dice.pick([good_plans.any_plan, good_plans.any_plan,
                      good_plans.small_plan, good_plans.dense_plan])
    return make(dice)


def changed(dice, faults):
    """A good plan with these faults, made in their order."""
    plan = good(dice)
    for _, change in faults:
        change(plan, dice)
    return plan


def at_limits(dice):
    return changed(dice, [dice.pick(AT_LIMITS)])


def broken(dice):
    """One fault, or two for different refusals, the later test's first."""
    numbers = {dice.between(2, 7) for _ in range(dice.between(1, 2))}
    return changed(dice, [dice.pick(FAULTS[number])
                          for number in sorted(numbers, reverse=True)])


def too_wide(dice):
    """One number or two that are too wide, sometimes on a broken plan."""
    faults = [dice.pick(TOO_WIDE) for _ in range(dice.between(1, 2))]
    if dice.chance(25):
        faults.insert(0, dice.pick(FAULTS[dice.between(3, 7)]))
    return changed(dice, faults)


def any_plan(dice):
    return dice.pick([good, at_limits, broken, broken, too_wide])(dice)


def numbers(plan):
    """F, W, N and the entries' numbers."""
    return [plan.frame_slots, plan.window_frames, plan.buffer,
            *(number for entry in plan.entries for number in entry)]

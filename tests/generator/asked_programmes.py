"""Programmes of the week as numbers, for whoever asks about them: entries
that touch, leave gaps, nest, repeat or lie outside, and a minute near them."""

WEEK = 10080                    # minutes
MOST = 64                       # entries
PLANS = (0, 1, 7, 255, 256, 65534, 65535)
NO_PLANS = (65536, 65537, 131071, 999999999)
OUTSIDE = (10081, 10082, 20160, 65536, 999999999)
WIDE = (65536, 2 ** 24)         # added to a number: the same when cut off


def number(dice):
    return dice.pick([dice.pick(PLANS), dice.below(65536)])


def places(dice, count):
    """So many different minutes, 0 and the week's end often among them."""
    found = set()
    if dice.chance(50):
        found.add(0)
    if dice.chance(50):
        found.add(WEEK)
    short = dice.chance(30)     # all within a few hours
    while len(found) < count:
        found.add(dice.below(300) if short else dice.between(0, WEEK))
    return sorted(found)


def apart(dice, most=MOST, gaps=30):
    """Entries that share no minute, with a gap now and then, in any order."""
    bounds = places(dice, dice.between(2, most + 1))
    entries = [[start, end, number(dice)]
               for start, end in zip(bounds, bounds[1:])
               if not dice.chance(gaps)]
    dice.shuffle(entries)
    return entries


def few(dice):
    return apart(dice, 5)


def touching(dice):
    return apart(dice, dice.pick([3, 10, MOST]), 0)


def none(dice):
    return []


# ---- entries that share minutes

def with_another(dice, entries, start, end):
    """One entry more, at any place."""
    entries.insert(dice.between(0, len(entries)), [start, end, number(dice)])
    return entries


def some_entry(dice):
    """Entries, at least one, and one of them."""
    entries = few(dice) or [[10, 20, 3]]
    return entries, dice.pick(entries)


def nested(dice):
    entries, (start, end, _) = some_entry(dice)
    first = dice.between(start, end - 1)
    return with_another(dice, entries, first, dice.between(first + 1, end))


def around(dice):
    entries, (start, end, _) = some_entry(dice)
    return with_another(dice, entries, dice.between(0, start),
                        dice.between(end, WEEK))


def repeated(dice):
    entries, entry = some_entry(dice)
    again = list(entry)
    if dice.chance(50):
        again[2] = number(dice)
    entries.insert(dice.between(0, len(entries)), again)
    return entries


def by_one_minute(dice):
    """One starts in the last minute of another, or just after it."""
    entries, (start, end, _) = some_entry(dice)
    first = end - dice.pick([0, 1, 1])
    return with_another(dice, entries, min(first, WEEK - 1),
                        min(first + dice.between(1, 90), WEEK))


def strewn(dice):
    """Anywhere in the week, however they lie to each other."""
    entries = []
    for _ in range(dice.between(1, 8)):
        start = dice.below(WEEK)
        end = dice.between(start + 1, min(WEEK, start + 700))
        entries.append([start, end, number(dice)])
    return entries


# ---- entries outside

def outside(dice):
    """One number changed: no minute long, backwards, or past the week."""
    entries, entry = some_entry(dice)
    change = dice.below(5)
    if change == 0:
        entry[1] = entry[0]
    elif change == 1:
        entry[0], entry[1] = entry[1], entry[0]
    elif change == 2:
        entry[1] = dice.pick(OUTSIDE)
    elif change == 3:
        entry[0] = dice.pick(OUTSIDE)
    else:
        entry[dice.below(2)] += dice.pick(WIDE)
    return entries


def outside_and_shared(dice):
    """28 and 29 both: the entry outside may be the last of them."""
    return dice.pick([nested, repeated])(dice) + outside(dice)[-1:]


def around_the_most(dice):
    """About 64 entries, most of which touch; sometimes two share a minute."""
    count = dice.pick([MOST - 1, MOST, MOST, MOST + 1, MOST + 2, 100])
    length = dice.between(1, 100)
    entries = [[length * i, length * i + length, number(dice)]
               for i in range(count)]
    if dice.chance(30):
        entries[-1] = list(entries[dice.below(count - 1)])
    dice.shuffle(entries)
    return entries


def no_plan(dice):
    """A number that is no plan's, anywhere."""
    entries, _ = some_entry(dice)
    dice.pick(entries)[2] = dice.pick(NO_PLANS)
    return entries


KINDS = (apart, few, few, touching, touching, none, nested, around, repeated,
         by_one_minute, strewn, outside, outside, outside_and_shared,
         around_the_most, no_plan)


# ---- the minute

def minute(dice, entries):
    """At an entry's ends or beside them, or anywhere."""
    if dice.chance(6):
        return dice.pick([WEEK, WEEK + 1, 20160, 65536, 999999999])
    if entries and dice.chance(70):
        entry = dice.pick(entries)
        near = dice.pick([entry[0] - 1, entry[0], entry[1] - 1, entry[1]])
        return max(0, near)
    return dice.pick([0, WEEK - 1, dice.below(WEEK)])


def numbers(dice):
    """The minute, and the entries' numbers."""
    entries = dice.pick(KINDS)(dice)
    return [minute(dice, entries),
            *(number for entry in entries for number in entry)]


def week(dice):
    """Entries without a minute, often of two kinds, so that they break several
    limits."""
    entries = dice.pick(KINDS)(dice)
    if dice.chance(40):
        entries += dice.pick(KINDS)(dice)
    return [number for entry in entries for number in entry]

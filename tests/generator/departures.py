"""Departures of all kinds: of tiles that have come, and of tiles to come."""


def head(file):
    """The first slot of the head frame."""
    return file.now() - file.now() % file.plan.frame_slots


def has_come(dice, file):
    """CP, or before CP in the head frame."""
    return dice.pick([file.now(), dice.between(head(file), file.now())])


def in_head_frame(dice, file):
    return head(file) + dice.below(file.plan.frame_slots)


def just_after(dice, file):
    return file.now() + 1


def in_newest_frame(dice, file):
    return file.last_slot() - dice.below(file.plan.frame_slots)


def last_slot(dice, file):
    return file.last_slot()


def near_the_last(dice, file):
    return file.last_slot() - dice.below(3)


def last_unbooked(dice, file):
    """The last slot of the window that nobody booked, which may be CP."""
    slot = file.last_slot()
    while slot in file.link.owner and slot > file.now():
        slot -= 1
    return slot


def gone_by(dice, file):
    """A slot before the head frame, whose position has not come again."""
    return head(file) - 1 - dice.below(file.plan.frame_slots)


def last_position(dice, file):
    return file.slots - 1


def anywhere(dice, file):
    return dice.below(file.slots)


KINDS = (has_come, in_head_frame, just_after, in_newest_frame, near_the_last,
         last_slot, last_unbooked, gone_by, last_position, anywhere)


def weighted(dice):
    """The kinds, each as often as its weight in this file."""
    return [kind for kind in KINDS for _ in range(dice.below(4))] or [anywhere]


def departure(dice, file, kinds=KINDS):
    """A position below T, of one of these kinds."""
    return dice.pick(kinds)(dice, file) % file.slots

"""Images by chance: taken ones, most of which no calls lead to; and others,
changed in a field or two, cut off, or of random bytes.
"""

from generator import good_plans
from images.acceptance import NOBODY
from images.fields import HEADER, SIZE, Places, change
from simulator.image import image_of
from simulator.link import Link
from simulator.plan import read_plan

# ---- taken images

def some_plan(dice):
    """Small plans most of the time."""
    kind = dice.below(20)
    if kind == 0:
        draft = good_plans.dense_plan(dice)
    elif kind < 6:
        draft = good_plans.any_plan(dice)
    else:
        draft = good_plans.small_plan(dice)
    return read_plan(draft.data())[1]


def some_bookings(dice, plan, owner, number, head, frame):
    """Up to the share in each frame from the head to IF; how many in IF."""
    ahead = (frame - head) % plan.window_frames
    booked = 0
    for step in range(ahead + 1):
        start = (head + step) % plan.window_frames * plan.frame_slots
        free = [position for position in range(start, start + plan.frame_slots)
                if owner[position] == NOBODY]
        dice.shuffle(free)
        booked = dice.pick([0, plan.share(number),
                            dice.between(0, plan.share(number))])
        for position in free[:booked]:
            owner[position] = number
    return booked


def next_level(dice, level, cells, booked):
    """What is held at a position later than CP, after this level."""
    if booked and level < cells and dice.chance(70):
        return level + 1
    return dice.between(0, level) if dice.chance(20) else level


def some_holdings(dice, plan, owner, number, current):
    """Anything up to the cells as far as CP; then falls, and rises by one at
    some booked positions."""
    cells = min(plan.cells(number), dice.pick([1, 2, 255]))
    held = [0] * plan.slots
    head = current - current % plan.frame_slots
    level = 0
    for step in range(plan.slots):
        position = (head + step) % plan.slots
        if step <= current - head:
            level = dice.between(0, cells)
        else:
            level = next_level(dice, level, cells, owner[position] == number)
        held[position] = level
    return held


def some_number(dice):
    """A quantum number, often one at a border."""
    return dice.pick([0, 1, 1022, 1023, dice.below(1024), dice.below(1024)])


def taken_image(dice):
    plan = some_plan(dice)
    current = dice.below(plan.slots)
    owner = [NOBODY] * plan.slots
    changes = [("CP", current), ("taken", dice.below(2)),
               ("look from", dice.below(plan.flows))]
    for number in range(plan.flows):
        frame = dice.below(plan.window_frames)
        booked = some_bookings(dice, plan, owner, number,
                               current // plan.frame_slots, frame)
        changes += [("IF", number, frame),
                    ("C", number, plan.share(number) - booked),
                    ("number", number, some_number(dice))]
    changes += [("held", number,
                 some_holdings(dice, plan, owner, number, current))
                for number in range(plan.flows)]
    changes += [("owner", position, flow)
                for position, flow in enumerate(owner)]
    return change(image_of(Link(plan)), *changes)


# ---- changed images; fields lie where they lay before any change

def some_field(dice, places):
    """A field by its name and place."""
    flow, position = dice.below(places.flows), dice.below(places.slots)
    return dice.pick([
        (dice.pick(HEADER),), (dice.pick(HEADER),),
        ("CP",), ("taken",), ("look from",),
        ("owner", position), ("owner", position),
        ("IF", flow), ("IF", flow), ("C", flow), ("C", flow),
        ("number", flow), ("number", flow),
        ("held", flow, position), ("held", flow, position),
        ("held", flow, position)])


def other_value(dice, value):
    return dice.pick([value + 1, value - 1, value + 1, value - 1, 0, 1, 2, 15,
                      16, 17, 255, 256, value + 256, 1023, 1024, 65535,
                      dice.below(65536), dice.below(20)]) % 65536


def change_field(dice, image, places):
    field = some_field(dice, places)
    at = places.of(*field)
    value = image[at] + 256 * image[at + 1]
    return change(image, (*field, other_value(dice, value)), places=places)


def change_plan(dice, image, places):
    byte = dice.below(places.owners - SIZE)
    value = dice.pick([0, 1, 9, 64, 255, image[SIZE + byte] ^ 1,
                       dice.below(256)])
    return change(image, ("plan", byte, value), places=places)


def change_bit(dice, image, places):
    image = bytearray(image)
    image[dice.below(len(image))] ^= 1 << dice.below(8)
    return bytes(image)


def book_somewhere(dice, image, places):
    """An owner; half of the time C is one less with it."""
    flow, position = dice.below(places.flows), dice.below(places.slots)
    changes = [("owner", position, flow)]
    left = image[places.of("C", flow)]
    if left and dice.chance(50):
        changes.append(("C", flow, left - 1))
    return change(image, *changes, places=places)


def book_many(dice, image, places):
    """All positions in a row that nobody booked, up to the frame's end."""
    flow, first = dice.below(places.flows), dice.below(places.slots)
    end = first - first % places.frame_slots + places.frame_slots
    free = [position for position in range(first, end)
            if image[places.of("owner", position)] == NOBODY]
    return change(image, *[("owner", position, flow) for position in free],
                  places=places)


def raise_somewhere(dice, image, places):
    """One cell more at some positions in a row, from one that the flow booked
    where there is one."""
    flow = dice.below(places.flows)
    at = places.of("owner", 0)
    booked = [position for position in range(places.slots)
              if image[at + 2 * position] == flow]
    first = dice.pick(booked or [dice.below(places.slots)])
    changes = []
    for position in range(first, dice.between(first + 1, places.slots)):
        held = image[places.of("held", flow, position)]
        changes.append(("held", flow, position, held + 1))
    return change(image, *changes, places=places)


CHANGES = (change_field, change_field, change_field, change_plan, change_bit,
           book_somewhere, book_many, raise_somewhere)


def change_length(dice, image):
    """A buffer that is longer or shorter, by a little or by much."""
    if dice.chance(50):
        return image + dice.data(dice.pick([1, 2, 16, 300]))
    return image[:dice.pick([dice.below(len(image)), len(image) - 1,
                             len(image) - 2, dice.below(22)])]


def random_image(dice):
    """Random bytes, some with a total length that could be theirs."""
    image = dice.data(dice.pick([0, 1, 16, 17, 18, 19, 40, 98, 300]))
    if dice.chance(70) and len(image) >= 2:
        total = dice.pick([0, 18, len(image), len(image), len(image) + 1])
        image = total.to_bytes(2, "little") + image[2:]
    return image


def any_image(dice):
    """A third as they were made, most of the others with one change or two,
    which some of them are taken with."""
    if dice.chance(4):
        return random_image(dice)
    image = taken_image(dice)
    kind = dice.below(100)
    if kind < 35:
        return image
    if kind >= 45:
        places = Places(image)
        for _ in range(dice.pick([1, 1, 1, 2])):
            image = dice.pick(CHANGES)(dice, image, places)
    return change_length(dice, image) if kind < 50 else image

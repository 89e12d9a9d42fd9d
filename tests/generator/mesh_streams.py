"""Sets of streams over the mesh as numbers: near the limit, far from it, and
with a fault."""

from simulator import mesh

WIDE = (64, 65, 72, 128, 256, 320, 65536, 999999999)


def ends(dice):
    source = dice.below(64)
    return source, (source + dice.between(1, 63)) % 64


def anywhere(dice):
    return ends(dice)


def in_one_line(dice):
    """Two boards of one row or of one column."""
    line, (first, second) = dice.below(8), (dice.below(8), dice.between(1, 7))
    second = (first + second) % 8
    if dice.chance(50):
        return 8 * line + first, 8 * line + second
    return line + 8 * first, line + 8 * second


def across_the_middle(dice):
    """Between the two halves of a row or of the mesh, so that links are
    shared by many."""
    west, east = dice.below(4), dice.between(4, 7)
    first, second = dice.below(8), dice.pick([dice.below(8), 3])
    pair = 8 * first + west, 8 * second + east
    return pair if dice.chance(75) else pair[::-1]


def to_one_board(dice):
    board = dice.pick([0, 7, 27, 36, 56, 63])
    return (board + dice.between(1, 63)) % 64, board


def several(dice, most_share):
    """Streams of one sort, or of all."""
    sort = dice.pick([anywhere, in_one_line, across_the_middle, to_one_board,
                      None])
    sorts = [sort] if sort else [anywhere, in_one_line, across_the_middle,
                                 to_one_board]
    count = dice.pick([dice.between(1, 6), dice.between(1, 24),
                       dice.between(40, 64), 64])
    return [dice.pick(sorts)(dice) + (dice.between(1, most_share),)
            for _ in range(count)]


def near_the_limit(dice):
    """F is what the fullest link carries, or one less, or one more."""
    streams = several(dice, dice.pick([1, 1, 2, 4, 16]))
    fullest = max(mesh.loads(streams).values())
    most = max(share for _, _, share in streams)
    slots = fullest + dice.pick([-1, -1, 0, 0, 1])
    return min(64, max(most, slots)), streams


def anyhow(dice):
    slots = dice.pick([64, dice.between(1, 64)])
    return slots, several(dice, slots)


# ---- faults

def no_frame(dice, slots, streams):
    return dice.pick([0, 65, 66, 256, 320, 65600, 999999999]), streams


def many(dice, slots, streams):
    return slots, streams + [streams[0]] * (dice.between(65, 90)
                                            - len(streams))


def wrong_entry(dice, slots, streams):
    place = dice.below(len(streams))
    source, destination, share = streams[place]
    wrong = dice.pick([
        (source, source, share), (source, destination, 0),
        (source, destination, slots + 1),
        (source, destination, share + dice.pick(WIDE)),
        (source + dice.pick(WIDE), destination, share),
        (source, destination + dice.pick(WIDE), share)])
    return slots, streams[:place] + [wrong] + streams[place + 1:]


def none(dice, slots, streams):
    return slots, []


FAULTS = (no_frame, many, wrong_entry, wrong_entry, none)


def broken(dice):
    """One fault, or two."""
    slots, streams = dice.pick([near_the_limit, anyhow])(dice)
    for _ in range(dice.between(1, 2)):
        if streams:
            slots, streams = dice.pick(FAULTS)(dice, slots, streams)
    return slots, streams


def numbers(dice):
    """F, and then three numbers for each stream."""
    slots, streams = dice.pick([near_the_limit, near_the_limit,
                                near_the_limit, anyhow, broken])(dice)
    return [slots, *(number for stream in streams for number in stream)]

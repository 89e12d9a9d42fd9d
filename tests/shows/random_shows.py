"""Numbers of shows from seeds: most of them pass or nearly do, and each
refusal comes up."""

import random

FRAMES = ((16, 4), (64, 4), (8, 8), (32, 8), (4, 2), (1, 2), (64, 2))
KINDS = ("passing", "passing", "passing", "to one board", "along a row",
         "any limits", "pairs", "many", "over one link")


def ends(chance, kind):
    if kind == "to one board":
        return chance.randrange(64), 63
    if kind == "along a row":
        return chance.randrange(4), chance.randrange(4, 8)
    if kind == "over one link":
        return chance.randrange(4), 8 * chance.randrange(8) + (
            chance.randrange(4, 8))
    if kind == "any limits" and chance.random() < 0.1:
        return chance.randrange(80), chance.randrange(80)
    return chance.randrange(64), chance.randrange(64)


def stream(chance, kind, slots):
    source, destination = ends(chance, kind)
    if source == destination and kind != "any limits":
        destination = (destination + 1) % 64
    share = chance.randint(1, max(1, slots // chance.choice((4, 8, 16))))
    if kind == "over one link":
        share = 1
    if kind == "any limits" and chance.random() < 0.1:
        share = chance.choice((0, slots, slots + 1))
    return source, destination, share


def cells_of(chance, kind, share):
    usual, last = 2 * share, 3 * share
    if chance.random() < 0.3:
        usual = last = chance.randint(1, 30)
    if kind == "any limits" and chance.random() < 0.1:
        usual = chance.choice((0, 255, 256))
    if kind == "any limits" and chance.random() < 0.1:
        last = chance.choice((0, 255, 256))
    return usual, last


def numbers(seed):
    """F, W, N, three numbers of each stream and two of each."""
    chance = random.Random("show %d" % seed)
    kind = KINDS[seed % len(KINDS)]
    slots, frames = chance.choice(FRAMES)
    buffer = chance.choice((20, 255, 1000, 4095))
    if kind == "any limits":
        slots = chance.choice((slots, slots, slots, 0, 65))
        frames = chance.choice((frames, frames, frames, 1, 9))
        buffer = chance.choice((buffer, buffer, 0, 4096))
    count = chance.randint(0, 12)
    if kind == "many":
        count = chance.choice((17, 40, 63, 64, 65))
    if kind == "over one link":
        count = chance.randint(14, 20)
    streams = [stream(chance, kind, slots) for _ in range(count)]
    if kind == "over one link":
        streams = list(dict.fromkeys(streams))
    if kind == "pairs" and streams:
        streams.append(streams[0][:2] + (1,))
    cells = [cells_of(chance, kind, s[2]) for s in streams]
    found = [slots, frames, buffer]
    for part in streams + cells:
        found += part
    return found

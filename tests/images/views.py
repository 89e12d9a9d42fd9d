"""What is seen in an image, by the functions of the header that look into one
(rule 12.1): the numbers that the image's bytes have, NAZGOLV_NONE where there
is no such number, and no byte past the buffer.
"""

import struct
from functools import partial

from generator.dice import Dice
from images import by_hand, resets_by_hand
from images.acceptance import refusal_of, tables_of
from images.host import ALONE, BOTH, FLOW, POSITION, SEEN, Script, run
from images.random_images import any_image, random_image, taken_image

NONE = 0xFFFFFFFF
FAR = (255, 256, 65535, 65536, 1 << 31, 1 << 32, (1 << 63) + 1,
       (1 << 64) - 1)
BY_CHANCE, WRONG = 40, 400      # images: taken ones, and any
SOME = 20                       # positions of a large one


def right(tables, name, flow, position):
    """The number that a taken image has, told from its bytes: rule 12.1."""
    plan = tables.plan
    of = SEEN[name]
    if (of in (FLOW, BOTH) and flow >= plan.flows
            or of in (POSITION, BOTH) and position >= plan.slots):
        return NONE
    if of == ALONE:
        return {"current": tables.current, "frame slots": plan.frame_slots,
                "window frames": plan.window_frames,
                "buffer cells": plan.buffer,
                "flows": plan.flows}[name]
    if of == POSITION:
        return tables.owner[position]
    if of == BOTH:
        return tables.flows[flow].held[position]
    part, entry = tables.flows[flow], plan.entries[flow]
    return {"share": entry[0], "cells": entry[1], "source": entry[2],
            "destination": entry[3], "injection frame": part.frame,
            "remainder": part.left, "number": part.number}[name]


def places(dice, tables, outside):
    """Flows and positions: all that are there where they are few, and some
    that are not."""
    flows, slots = tables.plan.flows, tables.plan.slots
    positions = range(slots) if slots <= SOME else [
        0, slots - 1, *[dice.below(slots) for _ in range(SOME)]]
    return ([*range(flows), *([flows, *FAR] if outside else [])],
            [*positions, *([slots, *FAR] if outside else [])])


def looks(dice, tables, names, outside):
    """A name, a flow and a position."""
    flows, positions = places(dice, tables, outside)
    for name in names:
        of = SEEN[name]
        for flow in flows if of in (FLOW, BOTH) else [dice.pick(FAR)]:
            for position in (positions if of in (POSITION, BOTH)
                             else [dice.pick(FAR)]):
                yield name, flow, position


def in_taken(command, images, names=tuple(SEEN), outside=True):
    """What is wrong with what is seen in taken images, or None; flows and
    positions that are not there are tried too, if these are wanted."""
    dice = Dice(1)
    script, looked = Script(), []
    for image in images:
        script.buffer(image)
        tables = tables_of(image)
        for look in looks(dice, tables, names, outside):
            script.see(*look)
            looked.append((look, right(tables, *look)))
    answers, wrong = run(command, script)
    return wrong or next((
        "%s of flow %d, position %d is %#x, not %#x" % (*look, found, wanted)
        for (look, wanted), found in zip(looked, answers)
        if found != wanted), None) or (
        len(answers) != len(looked) and "%d answers" % len(answers))


def in_any(command, images):
    """Of bytes that may be no image: a field of 16 bits or none, and none
    where the image is cut off."""
    dice = Dice(2)
    script, looked = Script(), []
    for image in images:
        script.buffer(image)
        for name in SEEN:
            look = (name, dice.pick([0, 1, 15, *FAR]),
                    dice.pick([0, 1, 7, dice.below(300), *FAR]))
            script.see(*look)
            looked.append((look, refusal_of(image) == 21))
    answers, wrong = run(command, script)
    return wrong or next((
        "%s of flow %d, position %d is %#x" % (*look, found)
        for (look, short), found in zip(looked, answers)
        if found != NONE and (short or found > 65535)), None)


def taken_by_hand():
    return [image for _, image in by_hand.TAKEN] + [
        left for *_, left in resets_by_hand.RESETS]


def taken_by_chance():
    return [taken_image(Dice(seed)) for seed in range(BY_CHANCE)]


def cut_off():
    """A small image at each length, and more."""
    image = by_hand.TAKEN[0][1]
    return [(image + b"\1\2")[:length] for length in range(len(image) + 3)]


def wrong_ones():
    """By chance, and with headers that lead far away."""
    for seed in range(WRONG):
        dice = Dice(seed)
        image = bytearray(any_image(dice) if seed % 2
                          else random_image(dice))
        for at in range(2, min(len(image), 12)):
            if dice.chance(40):
                image[at] = dice.pick([0, 1, 255, dice.below(256)])
        yield bytes(image)


def at_the_end(command):
    """A header that leads to the last bytes of a buffer: a field is seen if
    both of its bytes are there."""
    script, wanted = Script(), []
    for length in (18, 19, 40):
        for at in range(length - 4, length + 2):
            header = struct.pack("<9H", length, at, at, 2, at, 2, 0, 0, 0)
            script.buffer(header + bytes(length - len(header)))
            for name, place in (("owner", at), ("injection frame", at),
                                ("remainder", at + 2), ("buffer cells",
                                                        at + 10)):
                script.see(name)
                wanted.append((name, place, place + 2 <= length))
    answers, wrong = run(command, script)
    return wrong or next((
        "%s at %d is %#x" % (name, place, found)
        for (name, place, there), found in zip(wanted, answers)
        if (found != NONE) != there), None)


def tests(command):
    yield ("image: what is seen at the end of a buffer",
           partial(at_the_end, command))
    yield ("image: what is seen in images by hand",
           lambda: in_taken(command, taken_by_hand()))
    yield ("image: what is seen in images by chance",
           lambda: in_taken(command, taken_by_chance()))
    yield ("image: what is seen in one at each length",
           partial(in_any, command, cut_off()))
    yield ("image: what is seen in bytes that are no image",
           lambda: in_any(command, wrong_ones()))


def all_looks(command):
    """One run for tools that watch memory."""
    return (in_taken(command, taken_by_hand()[::3]) or in_any(
        command, [*cut_off(), *wrong_ones()]) or at_the_end(command))

"""A seed to the lines of its file for domeplan, and to their kind."""

from generator import (
    asked_delays, asked_extras, asked_faults, asked_plans, asked_programmes,
    counted_frames, mesh_streams, odd_lines, plan_hex)
from generator.dice import Dice

FEWEST, MOST = 10, 50           # lines of a file
FAR = (0, 1, 11, 12, 75, 76, 77, 255, 256, 4096, 65536, 999999999)


def shown(dice, number):
    """A number, now and then with zeros in front."""
    text = b"%d" % number
    return text.rjust(9, b"0") if dice.chance(3) else text


def question(dice, word, numbers):
    return b" ".join([word] + [shown(dice, number) for number in numbers])


def plan(dice, make=asked_plans.any_plan):
    return question(dice, b"plan", asked_plans.numbers(make(dice)))


def wide_plan(dice):
    return plan(dice, asked_plans.too_wide)


def room(dice):
    """In buffers of every length near the plan's, and others."""
    asked = dice.pick([asked_plans.good, asked_plans.any_plan])(dice)
    length = 12 + 4 * len(asked.entries)
    size = dice.pick([length + dice.between(-4, 4), length - 1, length,
                      dice.pick(FAR)])
    return question(dice, b"room", [max(0, size)]
                    + asked_plans.numbers(asked))


def read(dice):
    data = plan_hex.any_bytes(dice)
    return ("read " + plan_hex.digits(dice, data)).encode()


def mesh(dice):
    return question(dice, dice.pick([b"mesh", b"mesh-over"]),
                    mesh_streams.numbers(dice))


def count(dice):
    return question(dice, b"count", counted_frames.numbers(dice))


def extras(dice):
    return question(dice, b"extras", asked_extras.numbers(dice))


def programme(dice):
    return question(dice, b"programme", asked_programmes.numbers(dice))


def delay(dice):
    return question(dice, b"delay", asked_delays.numbers(dice))


def faults(dice):
    return question(dice, b"faults", asked_faults.numbers(dice))


def week_faults(dice):
    return question(dice, b"week-faults", asked_programmes.week(dice))


QUESTIONS = [plan, room, read, mesh, count, extras, programme, delay, faults,
             week_faults]


def odd(dice):
    return odd_lines.odd(dice, dice.pick(QUESTIONS)(dice))


def mixed(dice):
    return dice.pick([*QUESTIONS, wide_plan, odd])(dice)


KINDS = {"plans": plan, "too wide": wide_plan, "rooms": room, "reads": read,
         "meshes": mesh, "counts": count, "extras": extras,
         "programmes": programme, "delays": delay, "faults": faults,
         "weeks": week_faults,
         "odd lines": odd, "mixed": mixed}
ORDER = tuple(KINDS)            # the kinds of seeds 0, 1, 2 and so on


def kind_of(seed):
    """The name of the kind of file that a seed makes."""
    return ORDER[seed % len(ORDER)]


def generate(seed):
    """The bytes of a seed's file; a quarter of them have no newline at the
    end."""
    dice = Dice(seed)
    make = KINDS[kind_of(seed)]
    lines = [make(dice) for _ in range(dice.between(FEWEST, MOST))]
    return b"\n".join(lines) + (b"" if dice.chance(25) else b"\n")


def good_plans(seed, count):
    """So many good plans."""
    dice = Dice(seed)
    return [asked_plans.good(dice) for _ in range(count)]

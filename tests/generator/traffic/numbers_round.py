"""More than 1,024 grants of one flow, or of two: their numbers go round.
Wrong numbers come now and then, and often where they go round."""

from generator import good_plans
from generator.call_file import CallFile
from generator.numbers import number

NEAR = 3                # grants before and after the one that has number 0


def near_round(file, flow):
    return (file.quantum(flow) + NEAR) % 1024 < 2 * NEAR


def some_words(dice, file, flow, wrong):
    """A wrong number or a few, then the expected one.  The slot, or None."""
    often = 80 if near_round(file, flow) else wrong
    while dice.chance(often):
        file.ask(flow, quantum=number(dice, file, flow))
        often //= 2
    return file.ask(flow)


def fill(dice, file, past):
    """Each flow is granted `past` slots more than 1,024; each of its cells is
    free again one slot after its own."""
    wrong = dice.pick([0, 1, 5])
    waiting = []            # slots from which a cell is free, with its flow
    while any(granted < 1024 + past for granted in file.granted):
        for flow in range(file.flows):
            for _ in range(dice.pick([1, 4, 20])):
                slot = some_words(dice, file, flow, wrong)
                if slot is None:
                    break
                waiting.append((slot + 1, flow))
        for _ in range(dice.pick([1, 8, 20])):
            file.tick()
        due = [cell for cell in waiting if cell[0] <= file.last_slot()]
        waiting = [cell for cell in waiting if cell[0] > file.last_slot()]
        for slot, flow in due:
            file.give(flow, file.date(slot))
    return file


def one_flow(dice, calls):
    frame_slots, window_frames = dice.pick(
        [(64, 4), (32, 8), (64, 2), (8, 3), (20, 2)])
    draft = good_plans.Draft(frame_slots, window_frames,
                             [[frame_slots, 255, 1, 2]])
    return fill(dice, CallFile(draft), dice.between(1, 60))


def two_flows(dice, calls):
    """Both numbers go round, one after the other in most files."""
    share = dice.between(8, 16)
    draft = good_plans.Draft(32, dice.between(2, 8),
                             [[share, 120, 1, 2], [32 - share, 120, 2, 1]])
    return fill(dice, CallFile(draft), dice.between(1, 20))

"""More than 1,024 grants of one flow, in bursts: its numbers go round, often
in the middle of one.
"""

from generator import good_plans
from generator.bursts import MOST
from generator.call_file import CallFile
from generator.numbers import KINDS, number, one_ahead, one_behind, other_end
from generator.traffic.asking_until_refused import Stream
from generator.traffic.numbers_round import near_round
from simulator.records import ALLCALLS

AT_THE_ROUND = one_behind, one_ahead, other_end     # numbers near 1,023 and 0


def some_word(dice, file, wrong):
    """A word of flow 0.  So many parts in a hundred have another number, and
    more of them where the numbers go round."""
    def made():
        often, kinds = ((60, AT_THE_ROUND) if near_round(file, 0)
                        else (wrong, KINDS))
        quantum = number(dice, file, 0, kinds) if dice.chance(often) else None
        return file.word(0, quantum=quantum)
    return made


def round_again(dice, calls):
    """Each cell is free again one slot after its own.  How many calls there
    are is not looked at."""
    frame_slots, window_frames = dice.pick([(64, 4), (32, 8), (64, 2)])
    file = CallFile(good_plans.Draft(frame_slots, window_frames,
                                     [[frame_slots, 255, 1, 2]]), ALLCALLS)
    wrong = dice.pick([0, 1, 5])
    past = dice.between(1, 60)
    stream = Stream(file, 0, 1)
    while file.granted[0] < 1024 + past:
        for _ in range(dice.between(1, 4)):
            file.burst([some_word(dice, file, wrong)
                        for _ in range(dice.between(1, MOST))])
        for _ in range(dice.pick([8, 20, frame_slots])):
            file.tick()
        stream.settle()
    return file

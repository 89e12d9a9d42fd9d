"""Quantum numbers of words, most of them not the expected one."""


def one_behind(dice, file, flow):
    return file.quantum(flow) - 1


def one_ahead(dice, file, flow):
    return file.quantum(flow) + 1


def other_end(dice, file, flow):
    """1,023 for 0 and 0 for 1,023."""
    return 0 if file.quantum(flow) >= 512 else 1023


def of_another_flow(dice, file, flow):
    return file.quantum(dice.below(file.flows))


def of_all_flows(dice, file, flow):
    """The grants of all flows together."""
    return sum(file.granted)


def since_reset(dice, file, flow):
    return file.granted[flow] - file.at_reset[flow]


def one_bit(dice, file, flow):
    return file.quantum(flow) ^ 1 << dice.below(10)


def modulo_1000(dice, file, flow):
    return file.granted[flow] % 1000


def anything(dice, file, flow):
    return dice.below(1024)


KINDS = (one_behind, one_ahead, other_end, of_another_flow, of_all_flows,
         since_reset, one_bit, modulo_1000, anything)


def weighted(dice):
    """The kinds, each as often as its weight in this file."""
    return [kind for kind in KINDS for _ in range(dice.below(4))] or [anything]


def number(dice, file, flow, kinds=KINDS):
    """A number below 1,024, of one of these kinds."""
    return dice.pick(kinds)(dice, file, flow) % 1024

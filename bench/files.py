"""Whole files of calls, from start to end, with reading and writing: domelink,
and the plain Rust scheduler."""

import programs

KINDS = ("dense", "small", "ticks")


def measure(folder, count, rounds):
    """The best seconds of the two for each kind."""
    paths = [programs.make(folder, kind, count) for kind in KINDS]
    return dict(zip(KINDS, programs.fastest(folder, paths, rounds)))


def show(folder, count, rounds):
    for kind, best in measure(folder, count, rounds).items():
        for name, least in zip(("domelink", "rust"), best):
            print("%-6s %-9s %8.1f ms  %6.2f million calls a second"
                  % (kind, name, 1000 * least, count / least / 1e6))
        print("%-6s ratio %13.2f" % (kind, best[0] / best[1]), flush=True)

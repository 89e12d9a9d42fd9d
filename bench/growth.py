"""Nanoseconds a call of dense files as F, W and n grow, as tables."""

import programs

FLOWS = 16
TABLES = {                                      # rows of (F, W, n)
    "F": [(slots, 4, min(slots, FLOWS)) for slots in (8, 16, 32, 64)],
    "W": [(32, frames, FLOWS) for frames in (2, 4, 8)],
    "n": [(64, 4, flows) for flows in (1, 4, 16)],
}


def make(folder, count, size):
    options = [word for name, number in zip(("slots", "frames", "flows"), size)
               for word in ("--" + name, str(number))]
    return programs.make(folder, "dense", count, *options)


def show(folder, count, rounds):
    sizes = sorted({size for rows in TABLES.values() for size in rows})
    paths = [make(folder, count, size) for size in sizes]
    best = dict(zip(sizes, programs.fastest(folder, paths, rounds)))
    for letter, rows in TABLES.items():
        print("\n%s grows, nanoseconds a call:\n" % letter)
        print("| F | W | n | domelink | plain Rust | Ratio |")
        print("|---|---|---|---|---|---|")
        for size in rows:
            ours, theirs = best[size]
            print("| %d | %d | %d | %.0f | %.1f | %.2f |" % (
                *size, 1e9 * ours / count, 1e9 * theirs / count,
                ours / theirs))

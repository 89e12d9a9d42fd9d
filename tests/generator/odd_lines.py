"""Lines of domeplan that are no question, or are one by a hair."""

WORDS = (b"", b"plan", b"room", b"read", b"PLAN", b"Read", b"rooms", b"p",
         b"write", b"mesh", b"mesh-over", b"meshes", b"mesh-", b"count",
         b"counts", b"extras", b"extra", b"programme", b"program",
         b"programmes", b"faults", b"fault", b"week-faults", b"week-",
         b"week_faults", b"plan\t", b"\xef\xbb\xbfplan")
FIELDS = (b"", b" ", b"+1", b"-1", b"1.5", b"0x1", b"1e3", b"one", b"1,000",
          b"1000000000", b"0000000000", b"18446744073709551617", b"9" * 40,
          b"\t1", b"1\r", b"\x00", b"\xb2", b"/", b":", b"000000001",
          b"999999999")
BYTES = b" \t\r\x00/09:@AFG`afg~\x7f\x80\xff+-._x"


def swap_field(dice, line):
    """Another field in the place of one."""
    fields = line.split(b" ")
    place = dice.below(len(fields))
    fields[place] = dice.pick(FIELDS if place else WORDS)
    return b" ".join(fields)


def add_field(dice, line):
    fields = line.split(b" ")
    fields.insert(dice.between(1, len(fields)),
                  dice.pick([dice.pick(FIELDS), b"1"]))
    return b" ".join(fields)


def drop_field(dice, line):
    fields = line.split(b" ")
    del fields[dice.below(len(fields))]
    return b" ".join(fields)


def swap_byte(dice, line):
    place = dice.below(max(1, len(line)))
    return line[:place] + bytes([dice.pick(BYTES)]) + line[place + 1:]


def add_byte(dice, line):
    place = dice.between(0, len(line))
    return line[:place] + bytes([dice.pick(BYTES)]) + line[place:]


def drop_byte(dice, line):
    place = dice.below(max(1, len(line)))
    return line[:place] + line[place + 1:]


def cut(dice, line):
    return line[:dice.between(0, len(line))]


def joined(dice, line):
    """Twice the same line, with a blank between."""
    return line + b" " + line


def around_the_longest(dice, line):
    """Zeros or blanks up to about 4,000 bytes."""
    length = dice.pick([3999, 4000, 4001, 4002, dice.between(3900, 4200)])
    return line + dice.pick(b"0 1a").to_bytes(1, "big") * (length - len(line))


def random_line(dice, line):
    return dice.data(dice.below(60)).replace(b"\n", b" ")


CHANGES = (swap_field, swap_field, add_field, drop_field, swap_byte,
           swap_byte, add_byte, drop_byte, cut, joined, around_the_longest,
           random_line)


def odd(dice, line):
    """A question changed in one way, or in two."""
    for _ in range(dice.between(1, 2)):
        line = dice.pick(CHANGES)(dice, line)
    return line

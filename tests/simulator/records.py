"""Call records read to calls, or to None, which is refusal 16.

A table of records has a program's kinds: for the first byte of a record, how
the four after it are read.  A call is its name, as in calls.py, and its
arguments.  The words of a burst stand behind its record and count as a part
of it.
"""

SIZE = 5                        # bytes of one record
BURST, MOST = 6, 20             # a burst's kind, and the most of its words


def word(rest):
    return "request", int.from_bytes(rest, "little")


def flow_and_position(rest):
    if rest[3] != 0:
        return None
    return "credit", rest[0], rest[1] + 256 * rest[2]


def zeros(name):
    """A call without arguments, and four fillers."""
    return lambda rest: None if any(rest) else (name,)


def mask(rest):
    if rest[2] != 0 or rest[3] != 0:
        return None
    return "lend", rest[0] + 256 * rest[1]


def words(rest):
    """A burst, where all of its words are there."""
    if not begins_burst(bytes([BURST]) + rest) or len(rest) < 4 + 4 * rest[0]:
        return None
    return "burst", [int.from_bytes(rest[place:place + 4], "little")
                     for place in range(4, len(rest), 4)]


DOMELINK = {1: word, 2: flow_and_position, 3: zeros("tick")}
ALLCALLS = {**DOMELINK, 4: mask, 5: zeros("reset"), BURST: words}


def begins_burst(record):
    """Whether words follow this record, or none and that is right."""
    return (len(record) >= SIZE and record[0] == BURST
            and record[1] <= MOST and not any(record[2:SIZE]))


def split(data, kinds=DOMELINK):
    """The records of a file's bytes after the plan.  The last may be short,
    and so may the words of a last burst."""
    start = 0
    while start < len(data):
        end = start + SIZE
        if BURST in kinds and begins_burst(data[start:end]):
            end += 4 * data[start + 1]
        yield data[start:end]
        start = end


def read_record(record, kinds=DOMELINK):
    """Refusal 16: a short record, an unknown kind or a nonzero filler."""
    if len(record) < SIZE or record[0] not in kinds:
        return None
    return kinds[record[0]](record[1:])

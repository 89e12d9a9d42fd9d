"""A call file read: its plan, and its records as calls.

The plan's numbers are split and not tested, since the listing says whether
the plan is accepted.  A record that is no call is kept as its bytes.
"""

HEADER, ENTRY = 12, 4           # bytes of a plan's header and of a flow's entry
SHORTEST, LONGEST = 12, 76      # lengths that a plan may state
RECORD = 5                      # bytes of a record
BURST_WORDS = 20                # the most words that stand behind a burst


class NoPlan(Exception):
    """The file doesn't begin with as many bytes as a plan has to have."""


class Flow:
    """A flow's entry in the plan."""

    def __init__(self, number, share, cells, source, destination):
        self.number = number
        self.share = share              # slots per frame
        self.cells = cells              # places in the next board's buffer
        self.source = source            # a node
        self.destination = destination  # a node


class Plan:
    """A plan's numbers: F, W, N, T and the flows."""

    def __init__(self, data):
        self.data = bytes(data)
        (self.length, self.flow_count, self.offset, self.frame_slots,
         self.window_frames, self.buffer) = [
             low_first(data[place:place + 2]) for place in range(0, HEADER, 2)]
        self.positions = self.frame_slots * self.window_frames      # T
        self.flows = [Flow(number, *data[place:place + ENTRY])
                      for number, place in enumerate(
                          range(HEADER, len(data) - ENTRY + 1, ENTRY))]


class Word:
    """A look-ahead word, split into its fields."""

    def __init__(self, value):
        self.value = value
        self.destination = value >> 26
        self.flow = value >> 20 & 63
        self.quantum = value >> 10 & 1023
        self.departure = value & 1023


class Call:
    """A record.  `kind` is request, credit, tick, lend, reset, burst, or none
    for a record that is no call; what a kind doesn't have is None."""

    def __init__(self, kind, record, **fields):
        self.kind = kind
        self.record = bytes(record)             # a burst's with its words
        self.word = fields.get("word")          # request: a Word
        self.words = fields.get("words")        # burst: Words
        self.flow = fields.get("flow")          # request and credit
        self.position = fields.get("position")  # credit
        self.mask = fields.get("mask")          # lend: bit i is for flow i


def low_first(data):
    """The number of some bytes, low byte first."""
    return int.from_bytes(data, "little")


# ---- records

def request(record):
    word = Word(low_first(record[1:]))
    return Call("request", record, word=word, flow=word.flow)


def credit(record):
    if record[4]:
        return None
    return Call("credit", record, flow=record[1],
                position=low_first(record[2:4]))


def lend(record):
    if any(record[3:]):
        return None
    return Call("lend", record, mask=low_first(record[1:3]))


def without_arguments(kind):
    """Reads the record of a call that has four fillers."""
    return lambda record: None if any(record[1:]) else Call(kind, record)


def burst(record):
    """A burst, where its words are all there."""
    if not begins_burst(record) or len(record) < RECORD + 4 * record[1]:
        return None
    return Call("burst", record, words=[
        Word(low_first(record[place:place + 4]))
        for place in range(RECORD, len(record), 4)])


DOMELINK = {1: request, 2: credit, 3: without_arguments("tick")}
ALLCALLS = {**DOMELINK, 4: lend, 5: without_arguments("reset"), 6: burst}


def begins_burst(record):
    """Whether a burst's words stand behind these five bytes."""
    return (len(record) >= RECORD and record[0] == 6
            and record[1] <= BURST_WORDS and not any(record[2:RECORD]))


def whole_records(data, kinds):
    """The records at the start of some bytes that are all there, bursts with
    their words."""
    start, bursts = 0, 6 in kinds
    while start + RECORD <= len(data):
        end = start + RECORD
        if bursts and begins_burst(data[start:end]):
            end += 4 * data[start + 1]
            if end > len(data):
                return
        yield data[start:end]
        start = end


def call_of(record, kinds):
    read = kinds.get(record[0]) if len(record) >= RECORD else None
    return read and read(record) or Call("none", record)


def split(data):
    """The plan's bytes and the rest; NoPlan where the program gives P 1
    without looking further."""
    length = low_first(data[:2])
    if len(data) < 2 or not SHORTEST <= length <= LONGEST:
        raise NoPlan("the file doesn't begin with a plan's length, 12 to 76")
    if len(data) < length:
        raise NoPlan("the plan states %d bytes, and %d are there"
                     % (length, len(data)))
    return data[:length], data[length:]

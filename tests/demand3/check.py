"""The verdict on a listing: demand 3, prompt and soon, and which credits are
taken, lends answered and resets granted, checked from it and its call file
alone.

The check follows rules 21.2 to 21.10, 22.2 to 22.5, 22.12 and 22.14.  It
shares no code with the simulator and keeps no table of the link: it writes
down which slots the listing grants or lends and which credits it takes, and
counts them.
"""

import re
import struct

from demand3.history import History, Verdict

# A burst, which counts as the requests of its first 16 words: its kind, the
# most of its words, how many are handled, and the lines of its records.
BURST, MOST_WORDS, HANDLED = 6, 20, 16
FILLED = re.compile(r"B (?:0 (\d+)|([1-9]\d*) 0)\Z")
UNTOUCHED = "B 255 255"

# The lines that can answer a call, by its kind.
LINES = {
    1: re.compile(r"(G|R) (\d+)\Z"),
    2: re.compile(r"(C)()\Z|(R) (\d+)\Z"),
    3: re.compile(r"(T) (\d+|-)\Z"),
    4: re.compile(r"(L|R) (\d+)\Z"),
    5: re.compile(r"(Z)()\Z|(R) (\d+)\Z"),
}


def domelink(told):
    """Its kinds of records: for each the bytes that have to be 0, the lines
    that can answer it, and the method of the class that is told of them."""
    return {1: ((), LINES[1], told.request),
            2: ((4,), LINES[2], told.credit),
            3: ((1, 2, 3, 4), LINES[3], told.tick)}


def allcalls(told):
    """The same with three kinds more."""
    return {**domelink(told),
            4: ((3, 4), LINES[4], told.lend),
            5: ((1, 2, 3, 4), LINES[5], told.reset),
            BURST: None}


DOMELINK = domelink(History)
ALLCALLS = allcalls(History)
REFUSED = re.compile(r"R (\d+)\Z")


def is_call(record, kinds):
    """Whether the record makes a call at all (else it is refused with 16)."""
    return (len(record) == 5 and record[0] in kinds
            and not any(record[place] for place in kinds[record[0]][0]))


def take_line(history, record, text, kinds):
    if not is_call(record, kinds):
        take_no_call(history, record, text, kinds)
        return
    _, lines, tell = kinds[record[0]]
    found = lines.match(text)
    if not found:
        history.fault("a call of kind %d answered %r" % (record[0], text))
        return
    letter, number = [word for word in found.groups() if word is not None]
    tell(history, record, letter, number)


def take_no_call(history, record, text, kinds):
    if not REFUSED.match(text):
        history.fault("no call, yet answered %r" % text)


def take_handled(history, word, text, kinds):
    """A burst's record that is handled, as the request of its word."""
    found = FILLED.match(text)
    if not found:
        history.fault("a burst's record answered %r" % text)
        return
    position, number = found.groups()
    letter = "R" if position is None else "G"
    _, _, tell = kinds[1]
    tell(history, b"\x01" + word, letter, position or number)


def take_untouched(history, word, text, kinds):
    if text != UNTOUCHED:
        history.fault("a burst's record past %d answered %r"
                      % (HANDLED, text))


def in_lines(rest, kinds):
    """For each line of the listing the bytes that it answers, and how it is
    taken."""
    start = 0
    while start < len(rest):
        record = rest[start:start + 5]
        start += 5
        if record[0] != BURST or BURST not in kinds:
            yield record, take_line
        elif len(record) < 5 or record[1] > MOST_WORDS or any(record[2:]):
            yield record, take_no_call
        elif len(rest) < start + 4 * record[1]:
            yield rest[start:], take_no_call
            return
        else:
            for place in range(record[1]):
                yield (rest[start:start + 4],
                       take_handled if place < HANDLED else take_untouched)
                start += 4


def countable(data):
    """Whether the plan has the lengths and slots that the check needs."""
    if len(data) < 12:
        return False
    length, flows, _, frame_slots, window_frames, _ = struct.unpack_from(
        "<6H", data)
    return (length == 12 + 4 * flows <= len(data)
            and frame_slots > 0 and window_frames > 0)


def tell_all(history, data, lines, kinds):
    """Each line after the plan's, told beside the bytes that it answers."""
    rest = data[struct.unpack_from("<H", data)[0]:]
    records = list(in_lines(rest, kinds))
    if len(lines) != len(records) + 1:
        history.verdict.faults.append(
            "%d lines are due, and %d are after the plan's"
            % (len(records), len(lines) - 1))
    for (record, take), text in zip(records, lines[1:]):
        history.place += 1
        take(history, record, text, kinds)


def check(data, lines, kinds=DOMELINK):
    """The verdict on the listing `lines` of the call file `data`: rules
    21.1 to 21.10."""
    verdict = Verdict()
    if not lines or lines[0] != "P 0":
        if len(lines) != 1:
            verdict.faults.append("the plan was not accepted, and %d lines"
                                  % len(lines))
        return verdict
    if not countable(data):
        verdict.faults.append("accepted a plan that has no slots or flows")
        return verdict
    tell_all(History(data, verdict), data, lines, kinds)
    return verdict

"""The 64-bit results of the exported calls (rule 12.6)."""

POWER = 1 << 32
IDLE = 16


def number_of(call, letter, number):
    """The result of a call that the simulator answers so, by rule 12.6: a
    refusal is a multiple of 2^32, and below that are words, flows, 16 for
    idle, and 0."""
    if letter == "R":
        return number * POWER
    if letter == "G":
        return call[1] & ~1023 | number
    if letter == "T" and number == "-":
        return IDLE
    return number or 0


LETTERS = {"request": "G", "tick": "T", "lend": "L"}
ALONE = {"credit": "C", "reset": "Z"}       # letters without a number


def line_of(call, result):
    """The line of a result in a listing."""
    if result >= POWER:
        return "R %d" % (result // POWER)
    name = call[0]
    if name in ALONE:
        return ALONE[name] + (" with %d" % result if result else "")
    if name == "tick" and result == IDLE:
        return "T -"
    return "%s %d" % (LETTERS[name],
                      result & 1023 if name == "request" else result)


def record_line(call, result):
    """The line of a request's result in a burst."""
    return "B %d %d" % (result // POWER, 0 if result >= POWER
                        else result & 1023)


def said(result):
    """A result in words, for messages."""
    return "%#x" % result if result < POWER else "%d x 2^32 + %d" % divmod(
        result, POWER)

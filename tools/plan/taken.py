"""A plan taken from a file, bytes or text, with what domeplan says of it."""

from plan import faults, files, plans, program, text
from plan.ends import REFUSED, Trouble, Unread, called

SHORT, MISCOUNTED = 1, 2        # refusals of bytes that are no whole plan
LINE_BY_LINE = (3, 4, 5)        # refusals that more lines leave
LAST = 7                        # of a plan's refusals
LENGTHS = range(12, 77)         # that a plan can state


class Taken:
    """A plan and its faults, by the name of its file.  `plan` is None where
    its bytes can't be told apart; `lines` are those of its refusal."""

    def __init__(self, name, plan, found=(), lines=()):
        self.name = name
        self.plan = plan
        self.faults = list(found)
        self.refusal = self.faults[0].number if self.faults else 0
        self.lines = list(lines)

    def passes(self):
        return not self.refusal


def plan_inside(data, name):
    """How to check the plan that a file begins with, where it goes on after
    it."""
    length = int.from_bytes(data[:2], "little")
    if length not in LENGTHS or len(data) <= length:
        return ""
    quoted = "FILE" if name == "-" else "'%s'" % name.replace("'", "'\\''")
    return "; its plan is its first %d bytes: head -c %d %s | ./plan --check " \
        "-" % (length, length, quoted)


def of_header(number, data):
    """The fault of a header, with the numbers that stand in it."""
    field = [int.from_bytes(data[place:place + 2], "little")
             for place in (0, 2, 4)]
    if number == MISCOUNTED:
        here = "n is %d, the offset %d and the length %d" % (
            field[1], field[2], field[0])
    elif len(data) < 2:
        here = "it has %s" % ("1 byte" if data else "no byte")
    else:
        here = "it has %d bytes and states %d" % (len(data), field[0])
    return faults.Fault(number, faults.refusals_page(number).when, here)


def refused_header(number, data, name):
    """Bytes whose header is wrong."""
    fault = of_header(number, data)
    more = ""
    if number == SHORT:
        more = "a file of calls, which begins with a plan, is played by " \
            "./play" + plan_inside(data, name)
    lines = ["%s is refused with %d: %s" % (called(name), number,
                                            fault.sentence()),
             *faults.what_to_do([number], more)]
    return Taken(name, None, [fault], lines)


def found_in(plan, number, name, asked):
    """A plan that is refused with this number, with all that is wrong."""
    found = faults.of_plan(plan)
    if not found or found[0].number != number:
        raise program.odd(asked)
    return Taken(name, plan, found, faults.refusal_lines(
        "the plan" if name is None else called(name), found))


def of_bytes(data, name):
    if len(data) > files.MOST_BYTES:
        raise Trouble(
            "%s is no plan: a plan has at most 76 bytes, and this file has "
            "more than can be read as one; a file of calls is played by "
            "./play%s" % (called(name), plan_inside(data, name)),
            status=REFUSED)
    try:
        return Taken(name, program.ask("read %s" % data.hex() if data
                                       else "read", plans.answered))
    except program.Refused as refused:
        number = refused.number
    if number in (SHORT, MISCOUNTED):
        return refused_header(number, data, name)
    if number > LAST:
        raise program.odd("R %d" % number)
    return found_in(plans.of_bytes(data), number, name, "R %d" % number)


def of_numbers(plan, name=None):
    """The plan of numbers or of a text, and its bytes where it passes."""
    try:
        data = program.ask(plan.question("plan"), program.some_bytes)
    except program.Refused as refused:
        return found_in(plan, refused.number, name, "R %d" % refused.number), \
            b""
    return Taken(name, plan), data


# ---- texts

def text_faults(reader):
    """What is wrong with the lines of a text; of those that could be read,
    also what domeplan refuses in them."""
    found = list(reader.faults)
    plan = reader.plan()
    if plan and plan.flows:
        found += [(plan.flows[fault.flows[-1]].line if fault.flows
                   else plan.line, fault.sentence())
                  for fault in faults.of_plan(plan)
                  if fault.number in LINE_BY_LINE]
    return sorted(found, key=lambda pair: pair[0] or float("inf"))


def plan_of_text(data, name):
    """The plan of a text whose lines can be read."""
    if len(data) > text.MOST_BYTES:
        raise Trouble("%s has more than 65,536 bytes, and a plan's text has "
                      "at most these" % called(name))
    if not text.is_printable(data):
        raise Trouble("%s is no text; ./plan --read prints a plan file"
                      % called(name))
    reader = text.read(data)
    if reader.faults:
        raise Unread(name, text_faults(reader))
    return reader.plan()


def take(data, name):
    """The plan of a file, and its bytes where it passes."""
    if text.is_text(data):
        return of_numbers(plan_of_text(data, name), name)
    return of_bytes(data, name), data

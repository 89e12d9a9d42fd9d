"""The file of calls that BOOKED is the listing of: who makes each call, and
when the tile comes that it asks for."""

from check.files import Trouble, called, pieces_of
from show import call_file

ANSWERS = {"request": "GR", "credit": "CR", "tick": "T", "none": "R"}


class Calls:
    """A plan, and the calls after it, one after the other."""

    def __init__(self, name):
        self.name = name
        self.call = None        # that was answered last
        self.size = 2           # bytes of the next piece: the plan's length
        self.pieces = pieces_of(name, "a file of calls",
                                lambda source:
                                lambda: source.read(self.size))
        data = next(self.pieces, b"")
        self.size = max(call_file.low_first(data) - len(data), 0)
        data += next(self.pieces, b"")
        self.size = call_file.RECORD
        try:
            self.plan = call_file.Plan(call_file.split(data)[0])
        except call_file.NoPlan as wrong:
            raise Trouble("%s is no file of calls: %s; tools/calls makes one "
                          "of a text" % (called(name), wrong)) from None

    def flow(self, letter, line_number):
        """Whose call a line answers, by its letter; None for a tick and for a
        record that is no call."""
        record = next(self.pieces, b"")
        call = record and call_file.call_of(record, call_file.DOMELINK)
        if not call or letter not in ANSWERS[call.kind]:
            raise self.another("line %d answers no such call" % line_number)
        self.call = call
        return call.flow

    def slot_after(self, now, position):
        """The next slot at a position."""
        return now + 1 + (position - now - 1) % self.plan.positions

    def due(self, now):
        """The slot in which the last request's tile is due (rule 22.2): this
        one where its departure has gone by, which is then a position of this
        frame (rule 6.3)."""
        departure = self.call.word.departure
        begun = now % self.plan.frame_slots     # slots of this frame before
        gone = (now - departure) % self.plan.positions <= begun
        return now if gone else self.slot_after(now, departure)

    def end(self):
        """After the last line no call is left."""
        if next(self.pieces, b""):
            raise self.another("the file has more calls than it has lines")

    def another(self, why):
        return Trouble("BOOKED is not the listing of %s: %s; "
                       "./play FILE >BOOKED writes it" % (called(self.name),
                                                          why))

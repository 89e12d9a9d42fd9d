"""A stream's way over links that tick in step: a call file for each of them,
written while all are simulated.

The stream is one flow of each link.  It asks for at most its share in a frame
of the first, and on each later link for every tile, in order: in the slot in
which it comes, or ahead of it.  The cell of a tile is credited as the tile
comes up at the next board, dated the slot that the next link granted it; on
the last link as it comes up there, or when it was shown.  Neighbours ask until
they are refused, and are lent slots; the stream is lent none.
"""

from generator.call_file import CallFile
from simulator.records import ALLCALLS


class Board:
    """A link of the way, and the stream's tiles that it has been granted."""

    def __init__(self, draft, stream):
        self.file = CallFile(draft, ALLCALLS)
        self.stream = stream
        self.asked = 0              # tiles of the link before, asked for here
        self.due = []               # credits: (slot to send it, slot of it)

    def tiles(self):
        """The slots of the stream's tiles, in their order."""
        return self.file.grants[self.stream]

    def others(self):
        return [flow for flow in range(self.file.flows)
                if flow != self.stream]


class Way:
    def __init__(self, dice, boards, source, ahead=None, shown=False):
        self.dice = dice
        self.boards = boards
        self.source = source        # frame -> slots of it, in which it asks
        self.ahead = ahead          # frames, or None: asked for on arrival
        self.shown = shown          # the last link's cells are given back then
        self.dated = 0              # the last link's latest date of a credit
        self.greed = [dice.pick([0, 30, 100, 100]) for _ in boards]
        self.frame_slots = boards[0].file.plan.frame_slots

    def now(self):
        return self.boards[0].file.now()

    def frame(self, slot):
        return slot // self.frame_slots

    def last_slot(self, frame):
        return (frame + 1) * self.frame_slots - 1

    # ---- the stream

    def ask_first(self):
        first = self.boards[0]
        for slot in self.source(self.frame(self.now())):
            if slot == self.now():
                first.file.ask(first.stream)

    def may_ask(self, slot):
        """Ahead of a tile that comes in this slot: by so many frames, and not
        while its frame is the newest."""
        frames = self.frame(slot) - self.frame(self.now())
        newest = self.boards[0].file.plan.window_frames - 1
        return (self.ahead is not None and self.dice.chance(40)
                and frames <= self.ahead and frames < newest)

    def ask_next(self, before, board):
        """For the tiles that come now and those before them; for others as
        may be."""
        tiles = before.tiles()
        waiting = tiles[board.asked:]
        must = max((place + 1 for place, slot in enumerate(waiting)
                    if slot <= self.now()), default=0)
        for place, slot in enumerate(waiting):
            if place >= must and not self.may_ask(slot):
                break
            board.asked += 1
            if board.file.ask(board.stream, slot % board.file.slots) is None:
                break               # which the verdict tells

    def give_back(self, before, board):
        """The link before is credited for the tile that comes up now."""
        if self.now() in before.tiles():
            number = before.tiles().index(self.now())
            if number < len(board.tiles()):
                before.file.give(before.stream, board.tiles()[number])

    def note_last(self):
        """When the last link's cell of the tile that comes up now is given
        back: in this frame, or in one of this and the next."""
        now, last = self.now(), self.boards[-1]
        if now not in last.tiles():
            return
        latest = self.last_slot(self.frame(now) + self.shown)
        sent = self.dice.pick([now, latest, self.dice.between(now, latest)])
        last.due.append(sent)

    def give_last(self):
        """Dates don't go back, and are up to the next frame's end."""
        now, last = self.now(), self.boards[-1]
        latest = self.last_slot(self.frame(now) + 1)
        for _ in range(last.due.count(now)):
            first = max(now + 1, self.dated)
            self.dated = self.dice.pick(
                [first, latest, self.dice.between(first, latest)])
            last.file.give(last.stream, self.dated)
        last.due = [slot for slot in last.due if slot > now]

    # ---- the neighbours

    def ask_others(self, board):
        others = board.others()
        self.dice.shuffle(others)
        for flow in others:
            slot = board.file.ask(flow)
            while slot is not None:
                board.file.give(flow, slot)
                slot = board.file.ask(flow)

    def lend(self, board):
        mask = sum(1 << flow for flow in board.others()
                   if self.dice.chance(70))
        flow = board.file.lend(mask)
        if flow is not None:
            board.file.give(flow, board.file.later_slot(self.dice))

    def neighbours(self, place):
        board = self.boards[place]
        if self.dice.chance(self.greed[place]):
            self.ask_others(board)
        if self.dice.chance(20):
            self.lend(board)

    # ---- slots

    def slot(self):
        """What happens on every link in one slot, neighbours first or last."""
        for place, board in enumerate(self.boards):
            first = self.dice.chance(70)
            if first:
                self.neighbours(place)
            if place:
                self.ask_next(self.boards[place - 1], board)
                self.give_back(self.boards[place - 1], board)
            else:
                self.ask_first()
            if not first:
                self.neighbours(place)
        self.note_last()
        self.give_last()

    def files(self, frames):
        """The flow that is the stream and the call file, of each link."""
        for _ in range(frames * self.frame_slots):
            self.slot()
            for board in self.boards:
                board.file.tick()
        return [(board.stream, board.file.data()) for board in self.boards]

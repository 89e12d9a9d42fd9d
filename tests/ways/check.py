"""The verdict on a way: rules 22.6 to 22.8, 22.10 and 22.15, checked from the
call files and the listings of its links alone.

Each tile has to be granted on each link, on link number j at the latest j
frames after the one in which it was due on the first, and fewer than
(j + 1) x F slots after that slot.  Where it is told when tiles came to the
source, a share of tiles beyond the share costs a frame more.
"""

from ways.board import read


class Verdict:
    def __init__(self):
        self.faults = []
        self.links = 0
        self.tiles = 0          # that left the last link
        self.ahead = 0          # requests for tiles that were still to come
        self.attained = False   # a tile took all the slots of the bound
        self.after_burst = False    # so did one, with those of the burst


def request_faults(place, board):
    for number, tile in enumerate(board.tiles):
        if tile.refusal is not None:
            yield "link %d: tile %d is refused with %s" % (
                place, number, tile.refusal)


def passing_faults(place, before, board):
    """Rule 22.6: each tile is asked for with the slot in which it comes, from
    the grant on the link before up to that slot; and none is left out."""
    asked = board.tiles
    for number, (sent, tile) in enumerate(zip(before.sent(), asked)):
        if (tile.departure != sent.slot % board.total
                or not sent.asked <= tile.asked <= sent.slot):
            yield "link %d: tile %d comes in slot %d, and is asked for in " \
                "slot %d with departure %s" % (
                    place, number, sent.slot, tile.asked, tile.departure)
    come = [tile for tile in before.sent() if tile.slot <= board.now]
    if len(asked) < len(come):
        yield "link %d: %d tiles came, and %d were asked for" % (
            place, len(come), len(asked))


def late_faults(place, first, board):
    """Rules 22.1 and 22.7: on link number j at most j frames late."""
    frame = board.frame_slots
    for number, (tile, start) in enumerate(zip(board.tiles, first.tiles)):
        if tile.slot is None:
            continue
        frames = tile.slot // frame - start.due // frame
        if frames > place or tile.slot - start.due >= (place + 1) * frame:
            yield "link %d: tile %d comes up %d slots after it is due, in " \
                "frame %d after that" % (
                    place, number, tile.slot - start.due, frames)


def missing_faults(place, first, board):
    """Rule 22.15: each tile that is granted on the first link has come up on
    link number j once (j + 1) x F slots are over since it was due."""
    up = [tile for tile in board.sent() if tile.slot < board.now]
    over = [tile for tile in first.sent()
            if tile.due + (place + 1) * board.frame_slots <= board.now]
    if len(up) < len(over):
        yield "link %d: %d tiles have to be up, and %d are" % (
            place, len(over), len(up))


def longest(verdict, came, burst, last):
    """The slots from a tile's coming to its arrival, with a burst: rule
    22.10."""
    frames = verdict.links + 1 + -(-burst // last.share)
    for number, (slot, tile) in enumerate(zip(came, last.sent())):
        wait = tile.slot - slot
        if wait >= frames * last.frame_slots:
            verdict.faults.append("tile %d arrives %d slots after it came"
                                  % (number, wait))
        verdict.after_burst |= wait == frames * last.frame_slots - 1


def judge(flows, runs, came=(), burst=0):
    """On the stream that is these flows, one of each link; a run is a call
    file and its lines.  Tiles came to the source in these slots."""
    verdict = Verdict()
    boards = [read(*run, flow, verdict) for flow, run in zip(flows, runs)]
    first, last = boards[0], boards[-1]
    for place, board in enumerate(boards, 1):
        verdict.faults += request_faults(place, board)
        verdict.faults += late_faults(place, first, board)
        verdict.faults += missing_faults(place, first, board)
        verdict.ahead += sum(tile.due > tile.asked for tile in board.tiles)
    for place, pair in enumerate(zip(boards, boards[1:]), 2):
        verdict.faults += passing_faults(place, *pair)
    verdict.links = len(boards)
    verdict.tiles = len(last.sent())
    bound = (len(boards) + 1) * last.frame_slots - 1
    verdict.attained = any(
        tile.slot - start.due == bound
        for tile, start in zip(last.tiles, first.tiles)
        if tile.slot is not None)
    longest(verdict, came, burst, last)
    return verdict

"""Two boards that tick in step on equal F and W.  A word that the first link
answers goes on to the second, with the position granted as its departure; the
file is the second's.
"""

from generator import good_plans
from generator.call_file import CallFile

TRIES = 3               # of a word that the second link refuses


class Boards:
    def __init__(self, dice, first, second):
        self.dice = dice
        self.first = first
        self.second = second
        self.shared = min(first.flows, second.flows)
        self.delay = dice.pick([0, 0, 1, first.plan.frame_slots])
        self.stay = dice.pick([1, 2, first.plan.frame_slots])
        self.waiting = []       # words: (slot to send it, flow, slot, tries)
        self.credits = []       # of the second: (slot to send it, flow)

    def ask_first(self):
        """A word for the first link; its answer waits for the second."""
        flow = self.dice.below(self.shared)
        slot = self.first.ask(flow)
        if slot is not None:
            sent = self.first.now() + self.dice.below(self.delay + 1)
            self.waiting.append((sent, flow, slot, TRIES))

    def send_on(self):
        """Words that are due go to the second link, and again after a refusal.
        The first link's cell is free from the slot on in which the tile
        leaves the second board."""
        now = self.second.now()
        due = [word for word in self.waiting if word[0] <= now]
        self.waiting = [word for word in self.waiting if word[0] > now]
        for _, flow, slot, tries in due:
            leaves = self.second.ask(flow, slot % self.second.slots)
            if leaves is not None:
                self.first.give(flow, self.first.date(leaves))
            elif tries:
                again = now + self.dice.between(1, 1 + self.delay)
                self.waiting.append((again, flow, slot, tries - 1))

    def ask_second(self):
        """A tile of the second board itself: it is there."""
        self.second.ask(self.dice.below(self.second.flows))

    def give_back(self):
        now = self.second.now()
        for _, flow in [credit for credit in self.credits if credit[0] <= now]:
            self.second.give(flow, self.second.date(
                now + self.dice.between(1, self.stay)))
        self.credits = [credit for credit in self.credits if credit[0] > now]

    def tick(self):
        self.first.tick()
        came = self.second.tick()
        if came is not None:
            sent = self.second.now() + self.dice.below(self.stay)
            self.credits.append((sent, came))


def plans(dice):
    """Two plans with one F and one W."""
    window_frames = dice.between(2, dice.pick([3, 8]))
    frame_slots = dice.between(1, min(dice.pick([2, 4, 8, 64]),
                                      256 // window_frames))

    def plan():
        flows = dice.between(1, min(8, frame_slots))
        return good_plans.draft(
            dice, frame_slots, window_frames, flows,
            lambda share: dice.between(1, share * window_frames + 1))
    return plan(), plan()


def two_boards(dice, calls):
    boards = Boards(dice, *map(CallFile, plans(dice)))
    local = dice.pick([0, 10, 30])
    while boards.second.calls() < calls:
        for _ in range(dice.pick([0, 1, 2, 5, 9])):
            boards.ask_first()
        boards.send_on()
        if dice.chance(local):
            boards.ask_second()
        boards.give_back()
        boards.tick()
    return boards.second

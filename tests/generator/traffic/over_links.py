"""A stream over one to four links, each played twice: without sending ahead,
and with tiles sent ahead where the first run has an idle slot.  Both runs of
a link get the same calls; the pairs stand in the second alone.

Tiles of the stream, which is flow 0 on each link, are asked for on a later
link by the slot that the one before granted, in that slot or ahead of it, and
each grant there gives a cell of the link before back.  Other flows are greedy,
ask oddly, and give back when they like.  Where there are resets, both runs of
a link have them: nobody asks for a while, cells come back, and tiles that wait
are sent ahead all the same.
"""

import call_bytes
from generator import departures, good_plans, neighbours
from generator.call_file import CallFile
from generator.resets import return_cells
from simulator.ahead import Tiles, due_slot, send_ahead
from simulator.lend import taken
from simulator.records import ALLCALLS


class Twice:
    """A link's two runs while they are written."""

    def __init__(self, draft):
        self.plain, self.ahead = (CallFile(draft, ALLCALLS) for _ in range(2))
        self.plan = self.plain.plan
        self.link = self.plain.link
        self.slots, self.flows = self.plan.slots, self.plan.flows
        self.tiles = Tiles(self.flows)
        self.granted, self.at_reset = self.plain.granted, self.plain.at_reset
        self.lent = None                # the slot lent last in the first run

    def files(self):
        return [self.plain.data(), self.ahead.data()]

    # ---- what the generator of neighbours asks of a file

    def now(self):
        return self.plain.now()

    def last_slot(self):
        return self.plain.last_slot()

    def later_slot(self, dice):
        return self.plain.later_slot(dice)

    def quantum(self, flow):
        return self.plain.quantum(flow)

    def record(self, record):
        """The same in both runs.  What the first answers."""
        self.ahead.record(record)
        return self.plain.record(record)

    def ask(self, flow, departure=None, quantum=None):
        """The slot, or None; a tile of the slot is kept."""
        word = self.plain.word(flow, departure, quantum)
        due = due_slot(self.link, word)
        letter, number = self.record(call_bytes.request_of(word))
        if letter != "G":
            return None
        slot = self.link.slot_of(number)
        self.tiles.book(flow, slot, due)
        return slot

    def give(self, flow, slot):
        return self.record(
            call_bytes.credit(flow, slot % self.slots))[0] == "C"

    def tick(self):
        self.record(call_bytes.TICK)

    def reset(self):
        self.record(call_bytes.RESET)

    # ---- what is lent

    def lend(self, flow):
        """To one flow, in both runs, where both can: the slot is idle in the
        second too."""
        if not taken(self.ahead.link):
            letter, _ = self.record(call_bytes.lend(1 << flow))
            if letter == "L":
                self.lent = self.now()

    def send_ahead(self, dice, kind):
        """A pair in the second run, of a flow whose first tile that waits came
        before; a careless one may be any that did, and a hasty one may come
        in this very slot, against rule 24.2."""
        now = self.now()
        ready = self.tiles.ready(now, kind.hasty)
        if kind.careless and dice.chance(50):
            ready = {flow: dice.pick(come) for flow in range(self.flows)
                     for come in [[tile for tile in self.tiles.waiting(
                         flow, now) if tile.due < now]] if come}
        if dice.chance(50) and len(ready) > 1:
            flow = dice.pick(sorted(ready))
            ready = {flow: ready[flow]}
        if now == self.lent:
            return
        sent = send_ahead(self.ahead.link, ready)
        if sent:
            flow, mask, position = sent
            self.ahead.written += [call_bytes.lend(mask),
                                   call_bytes.credit(flow, position)]


class Way:
    """The links of a stream, and their traffic."""

    def __init__(self, dice, kind):
        self.dice, self.kind = dice, kind
        frame_slots = dice.between(2, kind.most_slots)
        window_frames = dice.between(2, kind.most_frames)
        share = dice.between(1, max(1, frame_slots // 2))
        self.links = [Twice(self.draft(frame_slots, window_frames, share))
                      for _ in range(dice.between(1, kind.most_links))]
        self.coming = [[] for _ in self.links]      # slots that tiles come in
        self.manner = dice.below(4)
        self.dense = dice.pick([40, 80, 100])       # of a hundred slots
        self.often = dice.pick([60, 80, 100])       # pairs, of idle slots

    def draft(self, frame_slots, window_frames, share):
        """A plan whose flow 0 has this share; the others what is left."""
        dice = self.dice
        flows = dice.between(1, min(4, frame_slots - share + 1))
        shares = [share] + [1] * (flows - 1)
        for _ in range(frame_slots - share - (flows - 1)):
            if flows > 1 and dice.chance(60):
                shares[dice.between(1, flows - 1)] += 1
        entries = [[each, self.cells(each), source, destination]
                   for each, (source, destination)
                   in zip(shares, good_plans.node_pairs(dice, flows))]
        return good_plans.Draft(frame_slots, window_frames, entries)

    def cells(self, share):
        low, more = self.kind.cells
        return min(255, low * share + self.dice.below(more * share + 2) or 1)

    # ---- the stream

    def ask(self, place, slot):
        """For a tile that comes in a slot, on a link; the cell of the link
        before comes back, dated the slot that is granted."""
        link = self.links[place]
        granted = link.ask(0, max(slot, link.now()) % link.slots)
        if granted is None:
            return False
        if place:
            before = self.links[place - 1]
            before.give(0, min(granted, before.last_slot()))
        if place + 1 < len(self.links):
            self.coming[place + 1].append(granted)
        elif self.kind.careless:
            link.give(0, link.later_slot(self.dice))
        elif self.dice.chance(90):
            link.give(0, link.plain.date(granted + self.dice.below(3)))
        return True

    def source(self):
        """Tiles that come to the first link, now or later."""
        dice, link = self.dice, self.links[0]
        if dice.chance(self.dense):
            last = self.coming[0][-1] if self.coming[0] else link.now()
            ahead = dice.below(link.plan.frame_slots) * dice.chance(40)
            self.coming[0].append(max(last, link.now() + ahead))

    def ask_for_coming(self, place):
        """In order: for what has come, and some of what comes later."""
        link, coming = self.links[place], self.coming[place]
        limit = link.now() + link.plan.frame_slots * self.dice.chance(40)
        while coming and coming[0] <= limit:
            if not self.ask(place, coming[0]):
                return
            del coming[0]

    # ---- the others

    def others(self, link):
        dice = self.dice
        if self.manner == 1:
            neighbours.ask_until_refused(dice, link, 0)
        elif self.manner == 2 and dice.chance(50):
            neighbours.ask(dice, link, 0)
        elif self.manner == 3 and dice.chance(50):
            dice.pick([neighbours.ask_oddly, neighbours.ask,
                       neighbours.give])(dice, link, 0)
            if dice.chance(20):
                link.ask(0, departures.departure(dice, link))
            if dice.chance(20):
                link.lend(dice.below(link.flows))
        if self.kind.careless and dice.chance(25):
            link.give(dice.below(link.flows), link.later_slot(dice))

    def slot(self):
        """What is called in a slot, on each link."""
        self.source()
        for place, link in enumerate(self.links):
            for act in self.dice.pick([(self.others, None), (None, self.others)
                                       ]):
                if act is None:
                    self.ask_for_coming(place)
                else:
                    act(link)
                if self.dice.chance(self.often):
                    link.send_ahead(self.dice, self.kind)
        for link in self.links:
            link.tick()

    def quiet_slot(self):
        """Nobody asks; cells come back, and a reset is tried now and then, in
        both runs, before a tile is sent ahead or after it."""
        dice = self.dice
        for link in self.links:
            if dice.chance(50):
                return_cells(dice, link, 20)
            if dice.chance(20):
                link.reset()
            if dice.chance(self.often):
                link.send_ahead(dice, self.kind)
            if dice.chance(30):
                link.reset()
        for link in self.links:
            link.tick()

    def files(self):
        """The two files of each link."""
        plan, dice = self.links[0].plan, self.dice
        for _ in range(dice.between(2, self.kind.frames)):
            for _ in range(plan.frame_slots):
                self.slot()
            if self.kind.resets and dice.chance(40):
                for _ in range(dice.between(1, plan.slots)):
                    self.quiet_slot()
        return [link.files() for link in self.links]

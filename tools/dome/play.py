"""A dome played slot by slot: every link by the proved scheduler, boards that
ask when tiles come and credit as the bound asks for."""

import random
import sys
import time

from dome.check import cells_missing
from dome.links import Link
from dome.source import Source

LATE_FRAMES = 2         # how much later a late board credits


class Flow:
    """A stream on one link of its way."""

    def __init__(self, link, number, destination):
        self.link = link
        self.number = number
        self.destination = destination
        self.granted = 0
        self.waiting = []       # tiles at the board before, the oldest first
        self.to_leave = {}      # by slot: the tile booked there, and where
                                # it was asked for

    def is_ready(self, slot):
        """Whether the tile of its next slot was asked for before this one."""
        return bool(self.to_leave) and (
            self.to_leave[min(self.to_leave)][1] < slot)


class Played:
    """A stream: its flows, its source, and what came of its tiles.  A tile is
    the slot in which it came."""

    def __init__(self, stream, flows, source, bound, options):
        self.stream = stream
        self.flows = flows
        self.source = source
        self.bound = bound
        self.greedy = stream.name in options.greedy
        self.late = stream.name in options.late
        self.asked = 0
        self.frame_asked = 0
        self.delays = []
        self.ahead = 0          # times that a tile left before its slot
        self.gains = []         # of each that so arrived, in slots

    def has_room(self):
        """Whether it has a cell free at each of its requests, by its own
        calls and its boards' credits (rules 22.8 and 24.6)."""
        return (self.bound is not None and not self.greedy and not self.late
                and not cells_missing(self.stream, self.bound, len(self.flows)))

    def keeps(self):
        """Whether it kept what the bound asks for."""
        return self.has_room() and self.source.kept

    def is_last(self, hop):
        return hop + 1 == len(self.flows)

    def mark(self):
        """Why it has a bound, or has none, in a word or two."""
        marks = [word for word, is_so in (("greedy", self.greedy),
                                          ("late", self.late)) if is_so]
        if self.keeps():
            marks.append("kept")
        return " ".join(marks) or "premises not kept"


class Dome:
    """All of it."""

    def __init__(self, planned, options):
        self.slots = planned.dome["F"]
        self.links = {link: Link(plan, options.ahead)
                      for link, plan in planned.answer.plans.items()}
        self.streams = []
        for s, way, bound in zip(planned.show.streams, planned.ways,
                                 planned.bounds):
            flows = [Flow(self.links[link], planned.flow(s, link),
                          s.destination) for link in way]
            self.streams.append(Played(
                s, flows, Source(s, self.slots, options), bound, options))
        self.chance = random.Random("%s boards" % options.seed)
        self.come_up = {}       # by slot: stream, hop and tile
        self.credits = {}       # by slot: flow of a link
        self.senders = [one for one in self.streams
                        if options.ahead and one.has_room()]

    def close(self):
        for link in self.links.values():
            link.close()

    # ---- a slot

    def play_slot(self, slot):
        for flow in self.credits.pop(slot, ()):
            self.credit(flow, slot, slot + 1)
        coming = self.come_up.pop(slot, ())
        for played, hop, tile in coming:
            self.arrive(played, hop, tile, slot)
        for played in self.streams:
            self.source(played, slot)
        asking = self.ask(slot)
        while asking:
            for link in asking:
                asking[link].insert(0, link.flush())
            for link, (count, *askers) in asking.items():
                for (played, hop), granted in zip(askers, link.read_on(count)):
                    self.answer(played, hop, slot, granted)
            asking = self.ask_again(slot)
        if self.senders:
            self.send_ahead(slot, {one.flows[hop].link
                                   for one, hop, _ in coming})

    def arrive(self, played, hop, tile, slot):
        """A tile's slot comes up on a link of its way.  If it was sent ahead
        it is there already; all that follows goes by this slot."""
        here = played.flows[hop].to_leave.pop(slot, None) is None
        if played.is_last(hop):
            if not here:
                played.delays.append(slot - tile)
            frame = slot // self.slots + 1
            shown = self.chance.randint(slot + 1, (frame + 1) * self.slots - 1)
            if played.late:
                shown += LATE_FRAMES * self.slots
            self.credits.setdefault(shown, []).append(played.flows[hop])
        else:
            played.flows[hop + 1].waiting.append(tile)

    def source(self, played, slot):
        first = played.flows[0]
        if slot % self.slots == 0:
            played.frame_asked = 0
        first.waiting += [slot] * played.source.comes(slot)
        if played.greedy and not first.waiting:
            first.waiting.append(slot)

    def may_ask(self, played, hop):
        if not played.flows[hop].waiting:
            return False
        return hop > 0 or played.greedy or (
            played.frame_asked < played.stream.share)

    def put(self, asking, played, hop, slot):
        """A request for the oldest tile that waits."""
        flow = played.flows[hop]
        flow.link.advance(slot)
        flow.link.request(flow.number, flow.destination, flow.granted % 1024)
        asking.setdefault(flow.link, []).append((played, hop))
        if hop == 0:
            played.asked += 1
            played.frame_asked += 1

    def ask(self, slot):
        """A request of each stream on each link where a tile of it waits."""
        asking = {}
        self.granted = set()
        for played in self.streams:
            for hop in range(len(played.flows)):
                if self.may_ask(played, hop):
                    self.put(asking, played, hop, slot)
        return asking

    def ask_again(self, slot):
        """Once more where the last was granted and more tiles wait."""
        asking = {}
        again, self.granted = self.granted, set()
        for played, hop in sorted(again, key=lambda x: (
                self.streams.index(x[0]), x[1])):
            if played.greedy and hop == 0 and not played.flows[0].waiting:
                played.flows[0].waiting.append(slot)
            if self.may_ask(played, hop):
                self.put(asking, played, hop, slot)
        return asking

    def answer(self, played, hop, slot, granted):
        if granted is None:
            return
        flow = played.flows[hop]
        tile = flow.waiting.pop(0)
        flow.granted += 1
        flow.link.booked[granted] = flow.number
        flow.to_leave[granted] = tile, slot
        self.come_up.setdefault(granted, []).append((played, hop, tile))
        self.granted.add((played, hop))
        if hop and played.late:
            self.credits.setdefault(slot + LATE_FRAMES * self.slots, []).append(
                played.flows[hop - 1])
        elif hop:
            self.credit(played.flows[hop - 1], slot, granted)

    def credit(self, flow, slot, dated):
        flow.link.advance(slot)
        flow.link.credit(flow.number, dated)

    # ---- tiles sent ahead: rules 24.1 and 24.2

    def send_ahead(self, slot, used):
        """On each link whose slot nobody booked, one stream sends the tile of
        its next slot, if that was due in an earlier one: asked for then; the
        link says which stream."""
        lending = {}
        for played in self.senders:
            for hop, flow in enumerate(played.flows):
                if flow.is_ready(slot) and flow.link not in used:
                    lending.setdefault(flow.link, {})[flow.number] = (
                        played, hop)
        counts = {}
        for link, flows in lending.items():
            link.advance(slot)
            link.lend(flows)
            counts[link] = link.flush()
        for link, flows in lending.items():
            lent, = link.read_on(counts[link])
            if lent is not None:
                self.leave_ahead(*flows[lent], slot)

    def leave_ahead(self, played, hop, slot):
        """A tile leaves in the slot that was lent, and the call after the
        lend is the credit dated its own."""
        flow = played.flows[hop]
        booked = min(flow.to_leave)
        tile, _ = flow.to_leave.pop(booked)
        flow.link.credit(flow.number, booked)
        played.ahead += 1
        if played.is_last(hop):
            played.delays.append(slot - tile)
            played.gains.append(booked - slot)


def count_up(done, slots, begun):
    sys.stderr.write("\rdome: slot %d of %d, %d s " % (
        done, slots, time.time() - begun))
    sys.stderr.flush()


class BrokenOff(Exception):
    """A break, with the sentence that says how far it came."""


def run(dome, slots):
    """Plays so many slots, with a line that counts on a terminal."""
    begun = shown = time.time()
    counting = sys.stderr is not None and sys.stderr.isatty()
    slot = 0
    try:
        for slot in range(slots):
            dome.play_slot(slot)
            if counting and time.time() - shown > 0.5:
                shown = time.time()
                count_up(slot, slots, begun)
    except KeyboardInterrupt:
        raise BrokenOff("broken off in slot %d of %d: nothing is printed" % (
            slot, slots)) from None
    finally:
        if counting:
            sys.stderr.write("\r%60s\r" % "")


def played(planned, options):
    """A dome after its run."""
    dome = Dome(planned, options)
    try:
        run(dome, options.slots)
    finally:
        dome.close()
    return dome



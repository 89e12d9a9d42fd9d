"""A plan printed, and checked: rates, delays, what to change, a verdict."""

from plan import program, table
from plan.ends import DONE
from plan.report import Report, refused, verdict

DELAYS = ("flow  slots  frames  cells  come up needs  shown needs   tiles "
          "more  frames more")
WORDS = """\
slots, frames: what a tile takes on this link at most, if it is asked for on
  arrival and its flow asks for no more than its share in a frame, has the
  cells for it, takes no lent slot, and no reset is granted (two_shares)
come up needs: cells for that, each credited as its tile comes up at the next
  board (two_shares); with fewer the link takes the plan, but that is not sure
shown needs: the same on the last link of a stream's way, each credited when its
  tile was shown, by the end of the next frame (three-shares)
tiles more, frames more: where so many tiles more than the share come at once, a
  tile takes so many frames more (from-source-on-arrival)"""


class Delay:
    """domeplan's answers on one flow's delay over this link, and on that with
    a share of tiles more."""

    def __init__(self, plan, flow, alone, later):
        self.flow = flow
        self.slots, self.come_up, self.shown = alone
        self.frames = (self.slots + 1) // plan.frame_slots
        self.frames_more = (later[0] - self.slots) // plan.frame_slots

    def line(self, number):
        flow = self.flow
        return "%4d  %5d  %6d  %5d  %-13s  %-12s  %10d  %11d" % (
            number, self.slots, self.frames, flow.cells,
            enough(flow.cells, self.come_up), enough(flow.cells, self.shown),
            flow.share, self.frames_more)

    def more_cells(self):
        """The cells that it would have, if they are too few."""
        return (max(self.flow.cells, self.come_up),
                max(self.flow.cells, self.shown))

    def as_object(self, plan):
        return {"rate": self.flow.share / plan.frame_slots,
                "delay_slots": self.slots, "delay_frames": self.frames,
                "come_up_needs": self.come_up, "shown_needs": self.shown,
                "tiles_more": self.flow.share,
                "frames_more": self.frames_more}


def enough(cells, needed):
    return "%d: enough" % needed if cells >= needed else "%d: add %d" % (
        needed, needed - cells)


def delays_of(plan):
    questions = [program.line("delay", (plan.frame_slots, 1, flow.share,
                                        burst))
                 for flow in plan.flows for burst in (flow.share, 0)]
    answers = program.ask_all(questions, program.numbers(3))
    return [Delay(plan, flow, alone, later) for flow, later, alone in zip(
        plan.flows, answers[::2], answers[1::2])]


def rate(whose, slots, frame_slots):
    """A line of the rates, in percent rounded to a tenth."""
    tenths = (2000 * slots + frame_slots) // (2 * frame_slots)
    return "%4s  %5s  %5s %%" % (whose, "%d/%d" % (slots, frame_slots),
                                 "%d.%d" % divmod(tenths, 10))


def changes(plan, delays):
    """What to change where cells are too few."""
    found = []
    for number, delay in enumerate(delays):
        name = delay.flow.name or number
        cells, (needs, shown) = delay.flow.cells, delay.more_cells()
        if needs > cells:
            found.append("flow %s: %d cells for %d, or %d if this is its last "
                         "link" % (name, needs, cells, shown))
        elif shown > cells:
            found.append("flow %s: %d cells for %d if this is its last link"
                         % (name, shown, cells))
    needed, needed_shown = (sum(cells) for cells in zip(
        *(delay.more_cells() for delay in delays)))
    if found and needed_shown > plan.buffer:
        sums = "%d, or to %d" % (needed, needed_shown) if (
            needed > plan.buffer) else "%d at most" % needed_shown
        found.append("the cells then add to %s, and N is %d: raise it, or "
                     "lower shares" % (sums, plan.buffer))
    return found


# ---- reports

def read_lines(plan):
    yield from table.lines_of(plan)
    yield ""
    yield "to make it again: " + table.again(plan)


def read_report(taken):
    """The plan as --read prints it."""
    if not taken.passes():
        return refused(taken)
    return Report(read_lines(taken.plan), verdict(
        DONE, refusal=0, faults=[], plan=table.object_of(taken.plan)))


def checked_lines(plan, delays):
    yield from read_lines(plan)
    yield ""
    yield "flow   rate, its share over F"
    for number, flow in enumerate(plan.flows):
        yield rate(number, flow.share, plan.frame_slots)
    yield rate("left", plan.slots_left(), plan.frame_slots)
    yield ""
    yield DELAYS
    for number, delay in enumerate(delays):
        yield delay.line(number)
    yield WORDS
    to_change = changes(plan, delays)
    if to_change:
        yield ""
        yield "to change:"
        yield from ("  " + line for line in to_change)
    yield ""
    yield "passes: the link takes this plan; slots left in a frame: %d of " \
        "%d; places left in the buffer: %d of %d" % (
            plan.slots_left(), plan.frame_slots, plan.places_left(),
            plan.buffer)


def check_report(taken):
    """What --read prints, with rates, delays and the verdict; of a plan that
    is refused the numbers as they stand."""
    plan = taken.plan
    if not taken.passes():
        return refused(taken, plan and [
            "refused; its numbers as they stand in the file:", "",
            *table.lines_of(plan)] or [])
    delays = delays_of(plan)
    numbers = table.object_of(plan)
    for flow, delay in zip(numbers["flows"], delays):
        flow.update(delay.as_object(plan))
    return Report(checked_lines(plan, delays), verdict(
        DONE, refusal=0, faults=[], plan=numbers,
        to_change=changes(plan, delays)))

"""A show with its plans: each stream's way, and the flow that it is on each
link of it."""

from dome import proved

ENTRIES = 12            # where the entries of a plan begin, four bytes each
OF_DOME, OF_STREAM, PLACES = 3, 4, 7            # numbers of faults
PASSES = 1, 1, 0, 1     # a flow that is within its limits, whatever F and N are
# For what is out of its limits: the widest that is within them.  Of a dome's
# faults these are the numbers of rule 15.4.
WIDEST = {0: {"F": 64}, 1: {"W": 2}, 2: {"W": 2}, 3: {"N": 4095}}


def entries(plan):
    """The flows of a plan's bytes: share, cells, source, destination."""
    return [tuple(plan[at:at + 4]) for at in range(ENTRIES, len(plan), 4)]


def in_order(source, links):
    """The links of a way, each from where the one before leads."""
    by_board = dict(links)
    way = []
    at = source
    while at in by_board and len(way) < len(links):
        way.append((at, by_board[at]))
        at = by_board[at]
    return way


class Planned:
    """The answers to a show's questions.  Where F, W or N is wrong, streams
    and links are asked about with `limits` in its place, so that what is wrong
    with them besides is told, too."""

    def __init__(self, show):
        self.show = show
        self.dome = show.dome
        self.answer = proved.ask_show(show.dome, show.streams)
        self.dome_faults = self.faults_of_dome()
        self.limits = dict(show.dome)
        for which, _ in self.dome_faults:
            self.limits.update(WIDEST[which])
        alone = [proved.ask_show(self.limits, [s]) for s in show.streams]
        self.alone = [answer.refusal for answer in alone]
        self.ways = [in_order(s.source, answer.links())
                     for s, answer in zip(show.streams, alone)]
        self.bounds = []
        if not self.answer.refusal:
            self.bounds = proved.ask_bounds(
                show.dome, show.streams, [len(way) for way in self.ways])

    def faults_of_dome(self):
        """What is wrong with F, W and N: which of them, and its value."""
        found = [(which, value) for number, which, value
                 in proved.ask_faults(self.dome, [PASSES])[0]
                 if number == OF_DOME]
        # rule 25.3: without streams no link has a W or an N
        return found if self.show.streams else [
            fault for fault in found if fault[0] == 0]

    def faults_of_stream(self, stream):
        """What is wrong with a stream alone, by rule 15.4: of its flow on the
        last link, and of that on the others, if there are some."""
        cells = [stream.last_cells, *[stream.cells] * (
            len(self.ways[self.show.streams.index(stream)]) > 1)]
        found = proved.ask_faults(self.limits, [
            (stream.share, count, stream.source, stream.destination)
            for count in cells])
        return sorted({(number, second if number == OF_STREAM else 0)
                       for faults in found for number, _, second in faults
                       if number in (OF_STREAM, PLACES)})

    def refused_links(self):
        """The refusals of links on which streams meet that pass alone."""
        passing = [s for s, refusal in zip(self.show.streams, self.alone)
                   if not refusal]
        return proved.ask_show(self.limits, passing).refusals

    def streams_on(self, link):
        """Those that pass alone."""
        return [s for s, way, refusal in zip(
            self.show.streams, self.ways, self.alone)
            if link in way and not refusal]

    def flow(self, stream, link):
        """The flow that a stream is on a link of its way."""
        return [entry[2:] for entry in entries(self.answer.plans[link])].index(
            (stream.source, stream.destination))

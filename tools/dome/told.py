"""What a run of a dome is told by: a line for each stream, what was gained by
sending ahead, and the bounds that were passed."""

from dome.check import table

HEAD = ["stream", "asked", "granted", "arrived", "mean", "greatest", "bound",
        "rate", "share"]


def still_on_the_way(dome, played):
    """The tiles of a stream that wait at a board, or are granted a slot to
    come and did not arrive ahead of it."""
    return [tile for flow in played.flows for tile in flow.waiting] + [
        tile for slot, coming in dome.come_up.items()
        for one, hop, tile in coming if one is played
        and (not one.is_last(hop) or slot in one.flows[hop].to_leave)]


def longest(dome, played, slots):
    """The most slots that a tile took or takes so far, -1 where none came."""
    return max([-1, *played.delays, *(
        slots - 1 - tile for tile in still_on_the_way(dome, played))])


def passed(dome, slots):
    """A sentence for each bound that was passed, by tiles that have not
    arrived too."""
    found = [(one, longest(dome, one, slots))
             for one in dome.streams if one.keeps()]
    return ["stream %s passed its bound: a tile took %d slots, and the bound "
            "is %d" % (one.stream.name, most, one.bound.slots)
            for one, most in found if most > one.bound.slots]


def mean(numbers, count):
    """The mean over so many, to a tenth."""
    return "%.1f" % (sum(numbers) / count) if count else "-"


def row(played, options):
    delays = played.delays
    said = [played.stream.name, str(played.asked),
            str(played.flows[0].granted), str(len(delays)),
            mean(delays, len(delays)), str(max(delays)) if delays else "-",
            str(played.bound.slots) if played.keeps() else "-",
            "%.3f" % (len(delays) / options.slots),
            "%.3f" % (played.stream.share / played.source.slots)]
    if options.ahead:
        said += [str(played.ahead), mean(played.gains, len(delays))]
    return said + [played.mark()]


def gained(dome):
    """What sending ahead came to."""
    ahead = sum(one.ahead for one in dome.streams)
    last = sum(len(one.gains) for one in dome.streams)
    return ("%d times a tile left a link ahead of its slot, %d of them on its "
            "last link, where it came sooner: by %d slots in all. On the "
            "links before nothing is gained, since the next board asks by the "
            "slot that was booked; so no booking moves." % (
                ahead, last, sum(sum(one.gains) for one in dome.streams)))


def lines(dome, options):
    """The lines of a run."""
    said = ["%d slots, seed %s" % (options.slots, options.seed), ""]
    if dome.streams:
        head = HEAD + (["ahead", "sooner"] if options.ahead else []) + ["kept"]
        said += table([head] + [row(one, options) for one in dome.streams])
    if options.ahead:
        said += ["", gained(dome)]
    return said

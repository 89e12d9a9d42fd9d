"""What ./dome check prints of a show that passes: each stream's way, rate,
cells and bound, and the fullest links."""

from dome.planned import entries

FULLEST = 5


def percent(part, whole):
    """A part in percent, rounded to a tenth."""
    tenths = (2000 * part + whole) // (2 * whole)
    return "%d.%d" % divmod(tenths, 10)


def table(rows):
    """Rows as lines: the first column and the last to the left, others to
    the right."""
    widths = [max(map(len, column)) for column in zip(*rows)]
    lines = []
    for row in rows:
        cells = [row[0].ljust(widths[0])]
        cells += [cell.rjust(width)
                  for cell, width in zip(row[1:-1], widths[1:-1])]
        lines.append("  ".join(cells + [row[-1]]).rstrip())
    return lines


def cells_missing(stream, bound, hops):
    """The cells that are fewer than the bound asks for, in words.  A way of
    one link has only its last."""
    short = []
    if hops > 1 and stream.cells < bound.cells:
        short.append("%d cells, and it takes %d" % (
            stream.cells, bound.cells))
    if stream.last_cells < bound.shown:
        short.append("%d on the last link, and it takes %d" % (
            stream.last_cells, bound.shown))
    return short


def bound_words(stream, bound, slots, hops):
    if bound is None:
        return ["-", "none: a bound is told of bursts up to 999"]
    short = cells_missing(stream, bound, hops)
    if short:
        return ["-", "none: " + " and ".join(short)]
    return [str(bound.slots), "%d frames" % -(-(bound.slots + 1) // slots)]


def stream_rows(planned):
    slots = planned.dome["F"]
    rows = [["stream", "from", "to", "hops", "share", "rate", "cells", "last",
             "burst", "bound", "or"]]
    for s, way, bound in zip(planned.show.streams, planned.ways,
                             planned.bounds):
        rows.append([s.name, str(s.source), str(s.destination), str(len(way)),
                     str(s.share), percent(s.share, slots) + " %",
                     str(s.cells) if len(way) > 1 else "-",
                     str(s.last_cells), str(s.burst),
                     *bound_words(s, bound, slots, len(way))])
    return rows


def way_lines(planned):
    width = max(len(s.name) for s in planned.show.streams)
    return ["%s  %s" % (s.name.ljust(width), " ".join(
        [str(s.source)] + [str(to) for _, to in way]))
        for s, way in zip(planned.show.streams, planned.ways)]


def link_lines(planned):
    slots, places = planned.dome["F"], planned.dome["N"]
    rows = [["link", "slots", "left", "cells", "left", "streams"]]
    full = []
    for link, plan in planned.answer.plans.items():
        flows = entries(plan)
        full.append((sum(f[0] for f in flows), link,
                     sum(f[1] for f in flows)))
    full.sort(key=lambda x: (-x[0], x[1]))
    for shares, link, cells in full[:FULLEST]:
        rows.append(["%d-%d" % link, "%d/%d" % (shares, slots),
                     str(slots - shares), "%d/%d" % (cells, places),
                     str(places - cells),
                     " ".join(s.name for s in planned.streams_on(link))])
    return table(rows) + as_full([shares for shares, _, _ in full])


def as_full(shares):
    """A line on links that are as full as the last of those listed, by the
    shares of all in order."""
    more = sum(each == shares[FULLEST - 1] for each in shares[FULLEST:])
    return ["and %s as full as the last of these" % (
        "1 more link is" if more == 1 else "%d more links are" % more)] * (
            more > 0)


def lines(planned):
    dome = planned.dome
    said = ["F %d, slots to a frame; W %d, frames in the window; N %d, "
            "places in each buffer" % (dome["F"], dome["W"], dome["N"]), ""]
    if planned.show.streams:
        said += table(stream_rows(planned))
        said += ["", "ways, board by board"] + way_lines(planned)
        said += ["", "the fullest links"] + link_lines(planned) + [""]
    links = len(planned.answer.plans)
    return said + ["the show passes: %d stream%s, %d link%s used" % (
        len(planned.show.streams), "s"[len(planned.show.streams) == 1:],
        links, " is" if links == 1 else "s are")]

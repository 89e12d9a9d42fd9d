"""What is said of a show that is refused: a sentence for each thing that is,
and what to do about each number."""

import sys
from pathlib import Path

from dome.planned import OF_DOME, OF_STREAM
from dome.show_file import listed

sys.path.insert(0, str(Path(__file__).resolve().parents[1] / "show"))
import refusals  # noqa: E402 (beside the pictures, which read the same page)

ELSEWHERE = "send a stream from another board or to another one"
TO_DO = {
    2: "%s, so that at most 16 meet on a link" % ELSEWHERE,
    3: "choose F from 1 to 64, W from 2 to 8, N from 1 to 4,095, and a "
       "smaller frame or window where there are too many positions",
    4: "give that stream two boards of 0 to 63 that differ, a share of 1 to F "
       "and cells of 1 to 255; cells= sets them",
    5: "make them one stream, or %s" % ELSEWHERE,
    6: "lower a share, or %s" % ELSEWHERE,
    7: "lower a share or its cells=, or choose a larger N",
    25: "lower a share, or %s" % ELSEWHERE,
}


# Of a dome's fault and of a stream's, by its number in rule 15.4.
DOME = ("F is not 1 to 64; here F is %d", "W is not 2 to 8; here W is %d",
        "the window has more than 256 positions; here it has %d",
        "N is not 1 to 4,095; here N is %d")
STREAM = ("its share is not 1 to F, which is {F}",
          "its cells are not 1 to 255",
          "the board that it comes from is above 63",
          "the board that it goes to is above 63", "it ends where it starts")


class Fault:
    """Something that is refused: the line where it stands, 0 for none, the
    number and a sentence."""

    def __init__(self, line, number, text):
        self.line = line
        self.number = number
        self.text = text


def why(number, known):
    return refusals.refusal(number, "plan", known).when


def said_of_dome(planned):
    """A fault for each number that is wrong."""
    for which, value in planned.dome_faults:
        yield Fault(planned.show.dome_line, OF_DOME, (
            "the dome, with F=%d W=%d N=%d, is refused with %d: %s" % (
                *(planned.dome[key] for key in "FWN"), OF_DOME,
                DOME[which] % value)))


def most_slots(planned):
    """F in words, also where it is none."""
    most = planned.limits["F"]
    return "%d%s" % (most, "" if most == planned.dome["F"] else " at most")


def said_of_stream(planned, s, number, known):
    """A stream that is refused alone, by what is wrong with it."""
    found = planned.faults_of_stream(s)
    if number not in [fault for fault, _ in found]:
        found = [(number, 0)]
    for fault in dict.fromkeys(fault for fault, _ in found):
        causes = [STREAM[which] for each, which in found
                  if each == fault == OF_STREAM]
        yield Fault(s.line, fault, (
            "stream %s, with from=%d to=%d share=%d and %d cell%s, %d on the "
            "last link, is refused with %d: %s" % (
                s.name, s.source, s.destination, s.share, s.cells,
                "s"[s.cells == 1:], s.last_cells, fault, ", and ".join(
                    cause.format(F=most_slots(planned)) for cause in causes)
                or why(fault, known))))


def said_of_link(planned, link, number, known):
    """The sentence of a link that is refused, with its streams."""
    streams = planned.streams_on(link)
    cells = sum(s.last_cells if link[1] == s.destination else s.cells
                for s in streams)
    return Fault(0, number, (
        "the link from %d to %d is refused with %d: %s; on it %s %s, with "
        "%d of %d slots and %d of %d cells" % (
            *link, number, why(number, known),
            "is" if len(streams) == 1 else "meet",
            listed(["%s of line %d" % (s.name, s.line) for s in streams]),
            sum(s.share for s in streams), planned.limits["F"],
            cells, planned.limits["N"])))


def faults(planned):
    """What is refused: the dome, each stream that is by itself, and the links
    on which the others meet."""
    number = planned.answer.refusal
    if not number:
        return []
    known = refusals.rows()
    found = list(said_of_dome(planned))
    for s, refusal in zip(planned.show.streams, planned.alone):
        if refusal:
            found += said_of_stream(planned, s, refusal, known)
    found += [said_of_link(planned, link, refusal, known)
              for link, refusal in sorted(planned.refused_links().items())]
    if not found:
        found = [Fault(0, number, "the show is refused with %d: %s" % (
            number, why(number, known)))]
    return sorted(found, key=lambda fault: fault.line or float("inf"))


def to_do(found):
    """What to do about each number that came."""
    return ["what to do about %d: %s" % (number, TO_DO[number])
            for number in sorted({fault.number for fault in found})
            if number in TO_DO]

"""./plan --check on delays: for each flow what a tile takes on this link,
whether its cells are enough for that in two ways, and what a burst costs."""

import re

import call_bytes
from front_door.command import ROOT, trouble
from front_door.plan_tree import NOT_DONE, in_trees
from simulator.delay import bounds
from simulator.plan import read_plan

HEAD = ("flow  slots  frames  cells  come up needs  shown needs   tiles more  "
        "frames more")
WORDS = """\
slots, frames: what a tile takes on this link at most, if it is asked for on
  arrival and its flow asks for no more than its share in a frame, has the
  cells for it, takes no lent slot, and no reset is granted (two_shares)
come up needs: cells for that, each credited as its tile comes up at the next
  board (two_shares); with fewer the link takes the plan, but that is not sure
shown needs: the same on the last link of a stream's way, each credited when its
  tile was shown, by the end of the next frame (three-shares)
tiles more, frames more: where so many tiles more than the share come at once, a
  tile takes so many frames more (from-source-on-arrival)
"""

# Plans of one flow: F, share and cells beside the flow's line, worked out by
# hand: 2F - 1 slots, and two and three shares of cells; and what to change.
ALONE = "flow 0: %d cells for %d if this is its last link"
BOTH = "flow 0: %d cells for %d, or %d if this is its last link"
LINES = [
    (1, 1, 1, "1       2      1  2: add 1       3: add 2               1"
     "            1", [BOTH % (2, 1, 3)]),
    (1, 1, 2, "1       2      2  2: enough      3: add 1               1"
     "            1", [ALONE % (3, 2)]),
    (1, 1, 3, "1       2      3  2: enough      3: enough              1"
     "            1", []),
    (8, 3, 5, "15       2      5  6: add 1       9: add 4               3"
     "            1", [BOTH % (6, 5, 9)]),
    (8, 3, 6, "15       2      6  6: enough      9: add 3               3"
     "            1", [ALONE % (9, 6)]),
    (8, 3, 8, "15       2      8  6: enough      9: add 1               3"
     "            1", [ALONE % (9, 8)]),
    (8, 3, 9, "15       2      9  6: enough      9: enough              3"
     "            1", []),
    (64, 64, 255, "127       2    255  128: enough    192: enough           "
     "64            1", []),
    (64, 64, 127, "127       2    127  128: add 1     192: add 65           "
     "64            1", [BOTH % (128, 127, 192)]),
]
# Plans with their lines on what to change: N is enough for both, for one, and
# for none; a flow with more than it needs keeps what it has.
CHANGES = [
    (40, [(2, 4), (2, 9)], [ALONE % (6, 4)]),
    (40, [(2, 3), (2, 9)], [BOTH % (4, 3, 6)]),
    (14, [(2, 4), (2, 9)],
     [ALONE % (6, 4), "the cells then add to 15 at most, and N is 14: raise "
      "it, or lower shares"]),
    (12, [(2, 3), (2, 9)],
     [BOTH % (4, 3, 6), "the cells then add to 13, or to 15, and N is 12: "
      "raise it, or lower shares"]),
    (255, [(2, 6), (2, 255 - 6)], []),
]
FLIGHTS = ("listing", "dense", "sparse")


def table(ended):
    """The lines of the flows, of what --check printed."""
    lines = ended.output.decode().split(HEAD + "\n")[-1].splitlines()
    return lines[:[line[:1] for line in lines].index("s")]


def changes(ended):
    """The lines on what to change."""
    paragraphs = ended.output.decode().split("\n\n")
    return [line.strip() for part in paragraphs
            if part.startswith("to change:\n") for line in
            part.splitlines()[1:]]


def each_message(tree):
    for frame, share, cells, line, change in LINES:
        data = call_bytes.plan(frame, 2, 4095, [(share, cells, 1, 9)])
        ended = tree.start("--check", "-", input=data)
        wrong = trouble(ended) or (
            [each.split(None, 1) for each in table(ended)] != [["0", line]]
            and "%s" % table(ended)
            or WORDS not in ended.output.decode() and "other words"
            or changes(ended) != change and "%s" % changes(ended))
        if wrong:
            return "F %d, share %d, cells %d: %s" % (
                frame, share, cells, wrong)
    return None


def what_to_change(tree):
    """The last line is the verdict all the same."""
    for buffer, flows, right in CHANGES:
        data = call_bytes.plan(8, 2, buffer, [
            (*flow, number, 9) for number, flow in enumerate(flows)])
        ended = tree.start("--check", "-", input=data)
        wrong = trouble(ended) or changes(ended) != right and (
            "%s" % changes(ended))
        if wrong or b"\n\npasses: " not in ended.output:
            return "N %d, %s: %s" % (buffer, flows, wrong or "no verdict")
    return None


def by_the_simulator(plan):
    """The flows' lines: one link, no burst, and one of the share."""
    for flow in range(plan.flows):
        share, cells = plan.share(flow), plan.cells(flow)
        _, (slots, *needed) = bounds(plan.frame_slots, 1, share, 0)
        _, (later, *_) = bounds(plan.frame_slots, 1, share, share)
        yield [str(flow), str(slots), str((slots + 1) // plan.frame_slots),
               str(cells),
               *[word for each in needed for word in (
                   "%d: enough" % each if cells >= each
                   else "%d: add %d" % (each, each - cells)).split()],
               str(share), str((later - slots) // plan.frame_slots)]


def plans_of_flights(tree):
    for name in FLIGHTS:
        data = (ROOT / "flights" / name).read_bytes()
        data = data[:data[0] + 256 * data[1]]
        ended = tree.start("--check", "-", input=data)
        lines = [line.split() for line in table(ended)]
        wrong = trouble(ended) or (
            lines != list(by_the_simulator(read_plan(data)[1])) and lines)
        if wrong:
            return "%s: %s" % (name, wrong)
    return None


def odd_delays(tree):
    """What domeplan never answers is not printed."""
    for answer in ("", "7", "7 4", "7 4 6 1", "7 4 x", "R 3", "ok"):
        tree.instead("read -r word rest\ncase $word in\n"
                     "read) echo plan 4 2 4 2 2 1 9 2 2 2 9 ;;\n"
                     "*) echo '%s' ;;\nesac\n" % answer)
        ended = tree.start("--check", tree.file)
        if (ended.status != NOT_DONE or ended.output or ended.errors
                != "plan: domeplan answered '%s'\n" % answer):
            return "%r: status %d, %r, %s" % (
                answer, ended.status, ended.output, ended.errors)
    return None


def named_theorems(tree):
    """Each theorem that is named stands in docs/PROVED.md."""
    page = (ROOT / "docs/PROVED.md").read_text()
    missing = [name for name in re.findall(r"\(([a-z-]+)\)", WORDS)
               if "`%s`" % name not in page]
    return missing and "not on the page: %s" % ", ".join(missing)


TESTS = (each_message, what_to_change, plans_of_flights, odd_delays,
         named_theorems)


def tests(programs):
    return in_trees(TESTS, programs)

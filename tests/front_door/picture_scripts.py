"""What the scripts of a page count and say, where node is on the machine."""

import json
import shutil
import subprocess

from driver.left_out import leave_out
from edges.all_edges import ALLCALLS_EDGES, EDGES
from front_door.command import LIMIT, ROOT
from front_door.picture_files import (
    LENT, LISTING, ONE_SLOT, SHOW, Played, flight_of)
from simulator.listing import simulate, split_file, steps
from simulator.records import ALLCALLS, DOMELINK, read_record, split

# Reads flights, each with calls, from standard input, and writes the owners
# and the holdings after these calls.
COUNTS = """
const asked = JSON.parse(require("fs").readFileSync(0, "utf8"));
console.log(JSON.stringify(asked.map(({ flight, calls }) => {
  flight.calls = callsOf(flight.trace);
  const stateAfter = player(flight);
  return calls.map((number) => {
    const state = stateAfter(number);
    return [state.owners, state.holdings];
  });
})));
"""


# Reads a flight, and writes what is said of each call, the refusal's row of
# docs/REFUSALS.md left out, and the calls that n and p find from the middle.
SENTENCES = """
const flight = JSON.parse(require("fs").readFileSync(0, "utf8"));
flight.refusals = {};
flight.calls = callsOf(flight.trace);
const stateAfter = player(flight);
console.log(JSON.stringify(flight.calls.map((call, number) =>
  callWords(flight, call, stateAfter(number), reasonsOf(flight, number + 1))
    .join(" ")).concat(
  [`n ${refusalFrom(flight, 0, 1, 0)} p ${refusalFrom(flight, 7, -1, 12)}` +
   ` none ${refusalFrom(flight, 3, 1, 0)} ${refusalFrom(flight, 0, 1, 11)}`])));
"""
SAID = [
    (LISTING, [
        "Flow 0 asks for a slot: quantum 0, departure 0. Granted slot 1, "
        "position 1 of frame 0, which comes up with the next tick.",
        "Flow 0 asks for a slot: quantum 1, departure 0. Granted slot 2, "
        "position 2 of frame 0, which comes up in 2 ticks.",
        "Flow 0 asks for a slot: quantum 2, departure 0. Refused with 12: all "
        "of its 2 cells are held.",
        "Flow 0 gives a cell back, dated position 4. Taken: it holds one less "
        "from slot 4, position 4 of frame 1 on.",
        "Flow 0 asks for a slot: quantum 2, departure 0. Granted slot 4, "
        "position 4 of frame 1, which comes up in 4 ticks.",
        "Flow 1 asks for a slot: quantum 0, departure 0. Granted slot 3, "
        "position 3 of frame 0, which comes up in 3 ticks.",
        "A tick: slot 1, position 1 of frame 0 has come up. It is flow 0's.",
        "n 3 p 3 none 0 0"]),
    (LENT, [
        "The current slot is to be lent; flows that wait: 0. Lent to flow 0.",
        "A tick: slot 1, position 1 of frame 0 has come up. Nobody booked "
        "it."]),
    (ONE_SLOT, [
        "Flow 0 asks for a slot: quantum 0, departure 0. Granted slot 1, "
        "position 1 of frame 1, which comes up with the next tick.",
        "A tick: slot 1, position 1 of frame 1 has come up. It is flow 0's. "
        "A frame change: frame 1 is head now, and frame 2 the newest."]),
]


def by_node(script, asked):
    """What a script of ours on top of the page's own answers."""
    scripts = [(SHOW / name).read_text().replace('"use strict";', "")
               for name in ("page_trace.js", "page_words.js")]
    done = subprocess.run(
        ["node", "-e", "\n".join([*scripts, script])], input=asked.encode(),
        stdout=subprocess.PIPE, timeout=LIMIT, check=True)
    return json.loads(done.stdout)


# ---- what its script counts

class Sample:
    """A call file for the script, and the calls after which it is looked
    at: every one of an edge, some of a flight."""

    def __init__(self, data, kinds=DOMELINK, apart=1):
        self.data, self.kinds = data, kinds
        self.lines = last_lines(data, kinds)
        self.calls = range(0, len(self.lines), apart)

    def flight(self):
        return flight_of(Played(
            self.data, simulate(self.data, self.kinds),
            ["--allcalls"] * (self.kinds is ALLCALLS)))

    def expected(self):
        """Owners and holdings by the second simulator."""
        wanted = [self.lines[call] for call in self.calls]
        after = {line: held_and_owned(link) for line, (_, link) in enumerate(
            steps(self.data, self.kinds)) if line in wanted}
        return [after[line] for line in wanted]


def held_and_owned(link):
    first = link.first_slot()
    return [[link.owner.get(slot)
             for slot in range(first, first + link.plan.slots)],
            [link.holdings(flow) for flow in range(link.plan.flows)]]


def last_lines(data, kinds):
    """The number of the last line of each call, 0 for the plan; a burst has
    a line for each of its words."""
    places = [0]
    for record in split(split_file(data)[1], kinds):
        call = read_record(record, kinds)
        places.append(places[-1] + (
            len(call[1]) if call and call[0] == "burst" else 1))
    return places


def samples():
    """Some edges of each sort, and the flights."""
    found = [Sample(edge.data) for edge in EDGES[::7]
             if edge.lines[0] == "P 0"]
    found += [Sample(edge.data, ALLCALLS) for edge in ALLCALLS_EDGES[::5]]
    return found + [Sample((ROOT / "flights" / name).read_bytes(),
                           apart=apart)
                    for name, apart in (("sparse", 1), ("dense", 61))]


def script_counts(looked_at):
    """What the page's script counts."""
    return by_node(COUNTS, "[%s]" % ",".join('{"flight":%s,"calls":%s}' % (
        sample.flight(), list(sample.calls)) for sample in looked_at))


def script_agrees_with_simulator():
    looked_at = samples()
    for sample, counted in zip(looked_at, script_counts(looked_at)):
        expected = sample.expected()
        if len(counted) != len(expected):
            return "%d states for %d" % (len(counted), len(expected))
        for call, found, right in zip(sample.calls, counted, expected):
            if found != right:
                return "call %d: %r for %r" % (call, found, right)
    return None


# ---- what its script says

def script_speaks():
    for played, expected in SAID:
        found = by_node(SENTENCES, flight_of(played))
        for number, pair in enumerate(zip(found, expected), 1):
            if pair[0] != pair[1]:
                return "call %d: %s" % (number, pair[0])
    return None


TESTS = (script_agrees_with_simulator, script_speaks)


def tests(programs):
    if not shutil.which("node"):
        leave_out("node", "the scripts of a page", len(TESTS))
        return
    for test in TESTS:
        yield "pictures: " + test.__name__.replace("_", " "), test

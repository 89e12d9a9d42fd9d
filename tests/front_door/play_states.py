"""The window after each call, as tools/show keeps it by the lines of a trace,
against the second simulator's link: rule 26.10."""

from edges.all_edges import ALLCALLS_EDGES, EDGES
from front_door.show_tools import (
    Refused, kept, plan_and_lines, summary)
from generator.seeds import ANY, BURSTS, LENDS, RESETS
from simulator.listing import steps
from simulator.records import ALLCALLS, DOMELINK

SORTS = (ANY, LENDS, RESETS, BURSTS)
MOST_BYTES = 1500       # of a file: the rest is cut off


def of_link(link):
    """What is compared of a simulator's link."""
    first, slots = link.first_slot(), link.plan.slots
    return (link.ticks, link.ticks % slots, link.head_frame(),
            tuple(map(link.owner.get, range(first, first + slots))),
            tuple(tuple(link.holdings(flow))
                  for flow in range(link.plan.flows)),
            tuple(flow.granted for flow in link.flows))


def of_kept(state):
    return (state.slot, state.current_position, state.head_frame,
            tuple(state.owners), tuple(map(tuple, state.holdings)),
            tuple(state.granted))


def differs(data, all_calls):
    """What differs in a file's windows, or None; a line of the listing stands
    for one of the trace that is none of `F` and `W`."""
    links = [link and of_link(link) for _, link in steps(
        data, ALLCALLS if all_calls else DOMELINK)]
    try:
        plan, lines = plan_and_lines(data, all_calls)
    except Refused:
        return None if links == [None] else "refused"
    state, at = kept.Kept(plan), 0
    for place, line in enumerate(lines):
        state.take(line.split())
        at += line[0] not in "FW"
        whole = lines[place + 1:place + 2]
        if not (whole and whole[0][0] in "FB") and of_kept(state) != links[at]:
            return "after call %d: %s" % (state.calls, of_kept(state))
    return at != len(links) - 1 and "%d of %d lines" % (at, len(links) - 1)


def held_otherwise(data, all_calls):
    """What the summary keeps of holdings, against the window after each line,
    as long as it follows a flow; and the most that stood in any of them."""
    try:
        plan, lines = plan_and_lines(data, all_calls)
    except Refused:
        return None
    state, counted = kept.Kept(plan), summary.Summary(plan)
    most = [0] * len(plan.flows)
    for line in lines:
        words = line.split()
        state.take(words)
        counted.takes[words[0]](words)
        if line[0] == "T" and words[4] == "1":
            continue                    # its lines F follow
        for number, flow in enumerate(counted.flows):
            held = list(state.holdings[number])
            most[number] = max(most[number], *held)
            if flow.held.most != most[number] or (
                    most[number] < flow.flow.cells and line[0] != "F"
                    and state.calls % 8 == 1 and flow.held.held() != held):
                return "flow %d after call %d: %s" % (number, state.calls,
                                                      flow.held.held())
    return None


def first_trouble(files, differs=differs):
    for name, data, all_calls in files:
        wrong = differs(data, all_calls)
        if wrong:
            return "%s: %s" % (name, wrong)
    return None


def edge_files():
    return [(edge.name, edge.data, all_calls)
            for edges, all_calls in ((EDGES, False), (ALLCALLS_EDGES, True))
            for edge in edges if len(edge.data) <= MOST_BYTES]


def generated_files():
    return [("%s, seed %d" % (sort.name, seed),
             sort.generate(seed)[:MOST_BYTES], sort.other_calls)
            for sort in SORTS for seed in range(12)
            if "long" not in sort.kind_of(seed)]


def states_of_edges():
    return first_trouble(edge_files())


def states_of_generated_files():
    return first_trouble(generated_files())


def the_most_that_is_held():
    return first_trouble(edge_files() + generated_files(), held_otherwise)


def tests(programs):
    for test in (states_of_edges, states_of_generated_files,
                 the_most_that_is_held):
        yield "./play: " + test.__name__.replace("_", " "), test

"""All executed edges: for every program, and for allcalls alone."""

from edges import (
    ahead, bursts, call_records, credits, departures, from_the_paper, lends, numbers,
    pairs, plan_limits, requests, resets, three_slips, ticks, turns)

EDGES = (from_the_paper.EDGES + three_slips.EDGES + requests.EDGES
         + departures.EDGES + numbers.EDGES + credits.EDGES + ticks.EDGES
         + call_records.EDGES + plan_limits.EDGES)
ALLCALLS_EDGES = (lends.EDGES + turns.EDGES + resets.EDGES + bursts.EDGES
                  + numbers.ALLCALLS_EDGES + pairs.EDGES + ahead.EDGES)

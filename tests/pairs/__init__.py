"""Pairs of runs: what neighbours can't change for a flow (rule 21.11).

A pair is two call files of one plan, with the same ticks, and the same
requests of one flow but for their numbers and the same credits of it, in the
same places.  What stands between is each run's own: the other flows' calls,
words for flows that are not there, lends, to the flow too, and bursts.  Both
are written side by side while they are simulated, so that each request has
the number of its own run and finds a cell free in both; in one kind of pairs
this is left to chance.

What comes of a pair is told from the two call files and the two listings
alone, by counts of its own: where the calls that have to be the same are not,
the pair is sent back; as far as the premise holds in both runs, each of the
flow's requests after the first frame change has to be granted in both, in the
same frame, or refused in both, and an ill-formed one for the same reason.
Where the premise breaks the rest is not judged, and the premise is counted by
its name.  At least half of the pairs have to meet it with k of 2 and more;
driver/pair_tally.py has what else has to come up."""

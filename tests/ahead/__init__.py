"""Two runs from one plan, in the second of which tiles are sent ahead of their
booked slots (rules 24.1 to 24.8).

The second has the calls of the first in their places, and pairs besides: a
lend that is answered with a flow, and a credit of that flow, taken, dated a
later position.  What comes of them is told from the two call files and the two
listings alone, by counts of its own: requests are granted in both with one
word or refused in both, with one number where the flow has no slot sent ahead
that is still to come; credits that the first takes the second takes; ticks
and resets are alike.  Each pair has to send a tile that was booked for the
slot of its date, came, and was asked for, in an earlier slot and has not left;
no two tiles leave in one slot, none after its slot, none in another order than
that of a stream's slots, and those that left are never more than the cells that
were given back and the flow's own.

A pair of runs in which a premise breaks is judged up to there, and the premise
counted by its name.  driver/ahead_suite.py has what has to come up."""

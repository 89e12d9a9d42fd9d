"""The generator: call files, pairs of runs and questions from seeds, the same
bytes for a seed on every machine.

A call file is of one of six sorts: any calls, departures of all kinds, quantum
numbers of all kinds, lends, resets, and bursts.  Where a sort names no
departure, its tile has come: the departure is the current position.  Where it
names no quantum number, the word has its flow's next one; a burst's words are
made one after the other as they are answered, so that theirs are right after
a refusal too.  Wrong numbers are meant: one behind, one ahead, 1,023 for 0
and 0 for 1,023, another flow's, counted since a reset; all flows' together,
one bit off, modulo 1,000.  Two kinds of files with numbers and one with bursts
have more than 1,024 grants of a flow.

What has to come up at least once is counted in driver/tally.py."""

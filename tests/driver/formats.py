"""How programs read call records: domelink's three kinds, and allcalls' three
more.

allcalls has two kinds of five bytes more: 4, a mask of two bytes, low first,
0, 0 is a lend, answered `L` and the flow, or `R` and the refusal; 5 and four
zeros is a reset, answered `Z`, or `R` and the refusal.  The third, 6, a count
c from 0 to 20, 0, 0, 0 and then c words of four bytes, low first, is a burst.
Its records have result 255 and position 255 before the call, and each is
answered `B`, its result and its position, `B 255 255` from the 17th on.  A
count above 20 or a nonzero filler gives `R 16`, and five bytes are used up;
where fewer than 4c bytes follow, one `R 16` stands for all the rest.

On a file with none of the three both programs have to give the same bytes.  A
generated file for domelink that has such a record by chance is one of them
for allcalls."""

from demand3 import check
from simulator import records


class Format:
    def __init__(self, name, kinds, checked, refusals):
        self.name = name            # of the one format below
        self.kinds = kinds          # the simulator's table of records
        self.checked = checked      # the same for the check of demand 3
        self.refusals = refusals    # the numbers that have to come up

    def __reduce__(self):
        """Another process that is handed a format has the same one."""
        return self.name


DOMELINK = Format(
    "DOMELINK", records.DOMELINK, check.DOMELINK, [*range(1, 17), 20, 24])
ALLCALLS = Format(
    "ALLCALLS", records.ALLCALLS, check.ALLCALLS, [*range(1, 19), 20, 23, 24])


def has_other_calls(data):
    """Whether some record of a call file is a call for allcalls alone."""
    rest = data[int.from_bytes(data[:2], "little"):]
    return any(
        record[0] not in records.DOMELINK
        and (records.begins_burst(record)
             or records.read_record(record, records.ALLCALLS))
        for record in records.split(rest, records.ALLCALLS))

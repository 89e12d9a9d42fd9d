"""Edits of a crate put together: slips in functions of their own share one,
so that one check of the crate tries them all."""

from front_door.slips import edits, functions, misfit, mixed, slips

HEAD = "# slips in functions of their own: tests/slips asks for an error of each"
TOGETHER = "together_%d"


def lines_of(slip):
    yield "slip: " + slip.name
    yield "# " + slip.words
    file = None
    for name, old, new in slip.steps:
        if name != file:
            yield "file: " + name
        file = name
        yield "old: " + old
        yield "new: " + new
    if slip.told:
        yield "told: " + slip.told


def written(batch):
    """The text of an edit with these slips."""
    if len(batch) == 1:
        return "\n".join(list(lines_of(batch[0]))[1:]) + "\n"
    return "\n".join([HEAD, *(line for slip in batch
                              for line in ["", *lines_of(slip)])]) + "\n"


def fits(batch, slip):
    """Whether a slip can stand in an edit with others."""
    steps = [step for each in [*batch, slip] for step in each.steps]
    return not misfit(slip.crate, steps) and not any(
        mixed(slip, other) or mixed(other, slip) for other in batch)


def batches(found):
    """The slips by turns, each with others in other functions."""
    rounds = []
    for slip in found:
        for batch in rounds:
            if fits(batch, slip):
                batch.append(slip)
                break
        else:
            rounds.append([slip])
    return rounds


def gather(crate):
    """Writes the edits of a crate anew; what became of each, as lines."""
    folder = edits(crate)[0].parent
    found = [slip for path in edits(crate) for slip in slips(path)
             if not slip.told and len(functions(slip)) == 1
             and None not in functions(slip)]
    for slip in found:
        (folder / (slip.edit + ".edit")).unlink(missing_ok=True)
    rounds = sorted(batches(found), key=len, reverse=True)
    for place, batch in enumerate(rounds, 1):
        name = batch[0].name if len(batch) == 1 else TOGETHER % place
        (folder / (name + ".edit")).write_text(written(batch))
        yield "%s: %s" % (name, ", ".join(slip.name for slip in batch))

"""The window after a call, drawn in characters: owners by position, and what
each flow holds against its cells."""

from colours import LETTERS
from words import plural

WIDTH = 64                      # slots in a row: the longest frame has as many
LABEL = 13                      # columns before the slots
BLOCKS = " ▁▂▃▄▅▆▇█"            # from nothing held to all cells held
PLAIN = " .,:-=+*#"             # the same where there are no blocks
IDLE, LENT = ".", "L"


def level(held, cells):
    """0 where nothing is held, 8 where all cells are, 1 to 7 between."""
    return max(1, 8 * held // cells) if held else 0


def frames_of(values, frame_slots):
    return [values[first:first + frame_slots]
            for first in range(0, len(values), frame_slots)]


def owner_letter(owner):
    return IDLE if owner is None else LETTERS[owner]


def current_place(state):
    return state.slot % state.plan.frame_slots


def headline(state, last):
    """Where the link stands, in words."""
    plan = state.plan
    return ["after call %d of %d: current position CP = %d, slot %d, in "
            "frame %d" % (state.calls, last, state.current_position,
                          state.slot, state.head_frame),
            "F = %d, W = %d, T = %d, N = %d; a letter or digit is the flow "
            "that booked" % (plan.frame_slots, plan.window_frames,
                             plan.positions, plan.buffer)]


def owner_rows(state):
    """A row for each frame, the head frame first, and a mark under CP."""
    size = state.plan.frame_slots
    rows = []
    for place, owners in enumerate(frames_of(state.owners, size)):
        letters = [owner_letter(owner) for owner in owners]
        name = {0: "head", state.plan.window_frames - 1: "newest"}.get(
            place, "")
        if place == 0 and state.lent is not None:
            letters[current_place(state)] = LENT
        rows.append("%-6s %4d  |%s|" % (
            name, state.positions[place * size], "".join(letters)))
        if place == 0:
            rows.append(" " * (LABEL + current_place(state) + 1) + "^ CP"
                        + lent_note(state))
    return rows


def lent_note(state):
    if state.lent is None:
        return ""
    return ", lent to flow %d" % state.lent


def holding_words(state, flow):
    """A flow's share, cells and holdings in words; from 10 on with its
    letter."""
    number = flow.number
    letter = " (%s)" % LETTERS[number] if number > 9 else ""
    held = state.holdings[number]
    coming = held[current_place(state):]
    # Whatever slot is booked, it is held in the window's last slot too.
    note = ", none left to book with" if coming[-1] >= flow.cells else ""
    return "flow %d%s: share %d, holds %d of %s now, at most %d%s" % (
        number, letter, flow.share, coming[0], plural(flow.cells, "cell"),
        max(coming), note)


def curve(state, flow, marks):
    """Rows of as many frames as fit, a mark for each slot."""
    size = state.plan.frame_slots
    drawn = ["".join(marks[level(held, flow.cells)] for held in frame)
             for frame in frames_of(state.holdings[flow.number], size)]
    in_row = max(1, (WIDTH + 1) // (size + 1))
    return [" " * LABEL + "|" + "|".join(drawn[first:first + in_row]) + "|"
            for first in range(0, len(drawn), in_row)]


def drawing(state, last, marks=BLOCKS):
    """The lines of the picture; `last` is the number of the last call."""
    lines = headline(state, last) + [""] + owner_rows(state)
    lines += ["", "Holdings by slot, head frame first: '%s' is all of the "
              "flow's cells, ' ' none" % marks[8]]
    for flow in state.plan.flows:
        lines.append(holding_words(state, flow))
        lines += curve(state, flow, marks)
    return lines

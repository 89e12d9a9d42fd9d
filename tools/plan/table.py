"""A plan as a table for people, and as an object for programs."""

HEAD = "flow  share  cells  source  destination"


def lines_of(plan):
    """F, W and N, a line for each flow, and what is left: below 0 where a sum
    is above F or N."""
    yield "F %d, slots to a frame" % plan.frame_slots
    yield "W %d, frames in the window" % plan.window_frames
    yield "N %d, places in the buffer" % plan.buffer
    yield ""
    yield HEAD + ("  name" if plan.names() else "")
    for number, flow in enumerate(plan.flows):
        yield ("%4d  %5d  %5d  %6d  %11d  %s" % (
            number, *flow.numbers(), flow.name or "")).rstrip()
    yield "left  %5d  %5d  of F and of N" % (plan.slots_left(),
                                             plan.places_left())


def again(plan):
    """The command that makes it."""
    return "./plan %d %d %d%s" % (
        plan.frame_slots, plan.window_frames, plan.buffer, "".join(
            "  %d %d %d %d" % tuple(flow.numbers()) for flow in plan.flows))


def object_of(plan):
    return {"F": plan.frame_slots, "W": plan.window_frames, "N": plan.buffer,
            "slots_left": plan.slots_left(),
            "places_left": plan.places_left(),
            "flows": [{"flow": number, "name": flow.name, "line": flow.line,
                       "share": flow.share, "cells": flow.cells,
                       "source": flow.source,
                       "destination": flow.destination}
                      for number, flow in enumerate(plan.flows)]}

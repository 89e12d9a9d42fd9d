"""One HTML page of a call file's play, which needs no network.

The page has the plan, the link before its first call, and the lines of the
trace that follow (rules 26.4 to 26.9), as JSON; the script of page_trace.js
keeps the window by them (rule 26.10), that of page_words.js says them, and
that of page_view.js draws.  Why a call is refused stands beside them, by the
call's number, as ./play --explain says it.
"""

import html
import json
import re
from pathlib import Path

import colours
import refusals
from kept import Kept
from lend_pairs import Pairs
from words import Words, refusal_of

HERE = Path(__file__).resolve().parent
MOST = 50000                    # calls of a page


class Flight:
    """The lines of a stretch of a trace, and what is said of them.  It begins
    before the tick with which its first slot comes up."""

    def __init__(self, plan, first=0, last=None):
        self.plan = plan
        self.first, self.last = first, last     # slots
        self.kept = Kept(plan)
        self.start = None if first else self.kept.copy()
        self.over = False               # the stretch has gone by
        self.full = False               # it has more calls than a page
        self.lines = []
        self.words = Words(plan)
        self.pairs, self.found_pairs = Pairs(), {}      # by call
        self.reasons, self.refusals = {}, {}            # by call, by number

    @property
    def calls(self):
        return self.kept.calls

    @property
    def slot(self):
        return self.kept.slot

    def add(self, lines):
        for line in lines:
            words = line.split()
            if words[0] not in "FB":
                self.begin_call(words)
                if self.over:
                    return
            self.kept.take(words)
            pair = self.pairs.of_line(words, self.kept.slot)
            if self.start:
                self.lines.append(line)
                self.note(words, pair)

    def begin_call(self, words):
        """Looks whether the stretch begins or ends with a call."""
        slot = self.kept.slot + (words[0] == "T")
        if not self.start and slot == self.first:
            self.start = self.kept.copy()
        self.full = bool(self.start) and (
            self.kept.calls - self.start.calls == MOST)
        self.over = self.full or self.last is not None and slot > self.last

    def note(self, words, pair):
        """What is said of a line besides its own words."""
        if pair:
            self.found_pairs[self.kept.calls] = pair
        if words[0] == "F" or words[0] == "W":
            return
        number, kind = refusal_of(words)
        here = self.words.here(words) if number else ""
        if words[0] == "B" or here:
            self.reasons.setdefault(self.kept.calls, []).append(here)
        if number and number not in self.refusals:
            row = refusals.refusal(number, kind, self.words.known)
            self.refusals[number] = [row.when, row.what_to_do]

    # ---- what the page's scripts read

    def facts(self, name):
        """All but the lines."""
        plan, start = self.plan, self.start
        return {
            "name": name,
            "F": plan.frame_slots, "W": plan.window_frames, "N": plan.buffer,
            "flows": [{"share": flow.share, "cells": flow.cells,
                       "source": flow.source, "destination": flow.destination,
                       "fill": colours.fill(flow.number),
                       "ink": colours.ink(flow.number),
                       "barred": colours.barred(flow.number)}
                      for flow in plan.flows],
            "start": {"calls": start.calls, "slot": start.slot,
                      "first": start.first, "lent": start.lent,
                      "owners": start.owners, "granted": start.granted,
                      "holdings": [list(held) for held in start.holdings]},
            "whole": not (start.calls or self.over),
            "refusals": dict(sorted(self.refusals.items())),
            "reasons": {call: reasons for call, reasons
                        in self.reasons.items() if any(reasons)},
            "pairs": self.found_pairs,
        }


def in_html(value):
    """JSON that no tag can end."""
    return json.dumps(value, separators=(",", ":")).replace("<", "\\u003c")


def flight_in_html(flight, name):
    """The flight with its trace, a line a line."""
    lines = ",\n".join('"%s"' % line for line in flight.lines)
    return '%s,"trace":[\n%s\n]}' % (
        in_html(flight.facts(name))[:-1], lines)


def beside(name):
    """The text of a file that stands beside this one."""
    return (HERE / name).read_text(encoding="utf-8")


def page(flight, name):
    """The whole page."""
    parts = {
        "NAME": html.escape(name),
        "STYLE": beside("page.css"),
        "FLIGHT": flight_in_html(flight, name),
        "TRACE": beside("page_trace.js"),
        "WORDS": beside("page_words.js"),
        "VIEW": beside("page_view.js"),
    }
    return re.sub("@([A-Z]+)@", lambda place: parts[place[1]],
                  beside("page.html"))

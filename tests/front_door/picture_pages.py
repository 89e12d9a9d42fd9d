"""The page of a play: what stands in it."""

import json
import re
from html.parser import HTMLParser

from front_door.command import ROOT, trouble
from front_door.picture_files import LISTING, Played, drawn
from simulator.listing import simulate

# Rule 13.6's seven calls as lines of a trace, by rules 26.4 to 26.6: the
# refusal, what is answered, the call, the link, the flow.
TRACE = ["G 0 1 1 0 0 0 9 0 0 0 0 1 1 1 0 1 1",
         "G 0 2 1 0 1 0 9 0 0 0 0 0 2 2 0 2 2",
         "R 12 0 1 0 2 0 9 0 0 0 1 2 2 0 16 0 2",
         "C 0 0 2 0 4 0 0 0 0 0 1 2 2 4 16 1 1",
         "G 0 4 1 0 2 0 9 0 0 0 1 1 3 4 0 2 2",
         "G 0 3 1 1 0 0 9 0 0 0 0 1 1 3 1 1 1",
         "T 0 0 3 0 0 0 0 1 0 0"]
KEPT = ("sparse", "dense")              # flights whose pages stand in docs
CONTROLS = {"button", "input", "select"}
FROM_OUTSIDE = re.compile(
    r"\b(src|href|srcset|action)\s*=|url\(|@import|fetch\(")


class Reader(HTMLParser):
    """The ids, controls and labels of a page, and the flight in it."""

    def __init__(self, text):
        super().__init__()
        self.ids, self.controls, self.labels, self.flight = [], [], [], ""
        self.in_flight = False
        self.feed(text)

    def handle_starttag(self, tag, attributes):
        found = dict(attributes)
        self.ids += [found["id"]] if "id" in found else []
        self.in_flight = found.get("id") == "flight"
        if tag in CONTROLS:
            self.controls.append((tag, found.get("id")))
        if tag == "label":
            self.labels.append(found.get("for"))

    def handle_data(self, data):
        if self.in_flight:
            self.flight += data


def page(played, **options):
    """The page of a file, or what is wrong."""
    done = drawn(played, "--page", "OUT", **options)
    return done.text, trouble(done.ended, output=b"", says="out' is written")


def calls_and_answers():
    text, wrong = page(LISTING)
    if wrong:
        return wrong
    flight = json.loads(Reader(text).flight)
    flows = [[flow[name] for name in ("share", "cells", "source",
                                      "destination")]
             for flow in flight["flows"]]
    for found, expected in (
            (flight["trace"], TRACE), (flows, [[2, 2, 1, 9], [2, 2, 2, 9]]),
            ([flight[name] for name in "FWN"], [4, 2, 4]),
            (list(flight["refusals"]), ["12"]),
            (flight["refusals"]["12"][1], "wait for credits or the next "
             "frame")):
        if found != expected:
            return "%r for %r" % (found, expected)
    return None


def no_network():
    text, wrong = page(LISTING)
    found = wrong or FROM_OUTSIDE.search(text)
    addresses = set(re.findall(r"\w+://[^\"' ]*", text))
    return wrong or (found and found[0]) or (
        addresses != {"http://www.w3.org/2000/svg"} and repr(addresses))


def labels():
    """Every control has a name, and every part that the script asks for is
    there, once."""
    text, wrong = page(LISTING)
    if wrong:
        return wrong
    read = Reader(text)
    unnamed = [name for tag, name in read.controls
               if tag != "button" and name not in read.labels]
    missing = set(re.findall(r'byId\("([\w-]+)"\)', text)) - set(read.ids)
    twice = len(read.ids) != len(set(read.ids))
    return (unnamed or missing or twice) and "%r %r" % (unnamed, missing)


def name_is_no_tag():
    text, wrong = page(LISTING, name="<b>&]}")
    return wrong or "<b>" in text and "a tag in it" or json.loads(
        Reader(text).flight)["name"] != "<b>&]}" and "another name"


def kept_pages():
    """docs/flights has the page of each flight as it is written now."""
    for name in KEPT:
        data = (ROOT / "flights" / name).read_bytes()
        text, wrong = page(Played(data, simulate(data)), name=name)
        kept = (ROOT / "docs/flights" / (name + ".html")).read_text()
        if wrong or text != kept:
            return wrong or ("docs/flights/%s.html is an old page; ./play "
                             "--page writes a new one" % name)
    return None


TESTS = (calls_and_answers, no_network, labels, name_is_no_tag, kept_pages)


def tests(programs):
    for test in TESTS:
        yield "pictures: page, " + test.__name__.replace("_", " "), test

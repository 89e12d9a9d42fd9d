"""One HTML page of a dome that was played, which needs no network: the mesh
with its links by load, and each stream's way and delays."""

import html
import json
from collections import Counter
from pathlib import Path

from dome.planned import entries

HERE = Path(__file__).resolve().parent


def link_data(planned):
    names = [s.name for s in planned.show.streams]
    return [{"from": link[0], "to": link[1],
             "shares": sum(flow[0] for flow in entries(plan)),
             "cells": sum(flow[1] for flow in entries(plan)),
             "streams": [names.index(s.name)
                         for s in planned.streams_on(link)]}
            for link, plan in sorted(planned.answer.plans.items())]


def stream_data(played, way):
    s = played.stream
    delays = played.delays
    return {"ahead": played.ahead, "gained": sum(played.gains),
            "name": s.name, "way": [s.source] + [to for _, to in way],
            "share": s.share, "cells": s.cells, "last": s.last_cells,
            "asked": played.asked, "granted": played.flows[0].granted,
            "arrived": len(delays),
            "mean": round(sum(delays) / len(delays), 1) if delays else 0,
            "greatest": max(delays, default=0),
            "bound": played.bound.slots if played.keeps() else None,
            "mark": played.mark(), "delays": sorted(Counter(delays).items())}


def text(planned, dome, options):
    """The page of a dome after its run."""
    data = dict(planned.dome, slots=options.slots, seed=str(options.seed),
                ahead=options.ahead, links=link_data(planned),
                streams=[stream_data(played, way) for played, way in zip(
                    dome.streams, planned.ways)])
    fill = {"NAME": html.escape(Path(options.path).name),
            "STYLE": (HERE / "page.css").read_text(),
            "DATA": json.dumps(data).replace("<", "\\u003c"),
            "SCRIPT": (HERE / "page.js").read_text()}
    page = (HERE / "page.html").read_text()
    for key, value in fill.items():
        page = page.replace("@%s@" % key, value)
    return page

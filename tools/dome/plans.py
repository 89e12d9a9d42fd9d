"""The plan files of a show, and their index.  Nothing is written before all
bytes are there; each file is written whole beside its place and then put
there."""

import os
import re
from pathlib import Path

NAME = re.compile(r"[0-9]+-[0-9]+\.plan\Z")


def index_text(planned):
    """A line for each stream and each link of its way: the flow there."""
    said = ["# stream, link, flow: which flow a stream is on each link"]
    for s, way in zip(planned.show.streams, planned.ways):
        said += ["%s %d-%d %d" % (s.name, *link, planned.flow(s, link))
                 for link in way]
    return "\n".join(said) + "\n"


def files(planned):
    """The files by name."""
    found = {"%d-%d.plan" % link: plan
             for link, plan in planned.answer.plans.items()}
    found["index.txt"] = index_text(planned).encode()
    return found


def put(path, data):
    """Writes a file whole, or leaves what was there."""
    beside = path.with_name(".%s.%d.tmp" % (path.name, os.getpid()))
    try:
        with open(beside, "wb") as out:
            out.write(data)
            out.flush()
            os.fsync(out.fileno())
        os.replace(beside, path)
    except OSError:
        beside.unlink(missing_ok=True)
        raise


def write(planned, folder):
    """Writes them all; how many links have a plan."""
    target = Path(folder)
    target.mkdir(exist_ok=True)
    for name, data in files(planned).items():
        put(target / name, data)
    return len(planned.answer.plans)


def of_no_link(planned, folder):
    """The plan files in a folder that are not of this show."""
    there = [path.name for path in Path(folder).iterdir()
             if NAME.match(path.name)]
    return sorted({*there} - {*files(planned)}, key=lambda name: [
        int(board) for board in name[:-len(".plan")].split("-")])

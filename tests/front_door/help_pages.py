"""Each command's --help fits a screen and lists the exit statuses."""

from front_door.command import ROOT, start, trouble

LINES, COLUMNS = 40, 80
COMMANDS = ("play", "plan", "dome", "check-log", "tools/calls", "tools/build",
            "tests/run", "tests/slips", "bench/run", "bench/console")


def fits(name):
    ended = start([ROOT / name, "--help"])
    lines = ended.output.decode().splitlines()
    widest = max(map(len, lines), default=0)
    if len(lines) > LINES or widest > COLUMNS:
        return "%d lines of up to %d columns" % (len(lines), widest)
    return trouble(ended) or (
        b"Exit status: 0 " not in ended.output and "no word on the status")


def tests(programs):
    for name in COMMANDS:
        yield "help: " + name, lambda name=name: fits(name)

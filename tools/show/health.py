"""python3 health.py [--json] [--allcalls] PROGRAM NAME: says of the run that
standard input has, a call file or its text, whether each flow got what its
share promises.  PROGRAM is dometrace, and NAME is what sentences call the
input.  ./play --health starts it.

Exit status: 0 it passes, 1 it fails or the plan is refused, 2 nothing was
played, 3 the output is not whole.
"""

import sys

from ends import for_programs, write_output
from following import follow
from health_report import Report
from run_health import RunHealth

OPTIONS = ("--json", "--allcalls")


def main(words):
    options = {word for word in words if word in OPTIONS}
    program, name = [word for word in words if word not in OPTIONS]
    if "--json" in options:
        for_programs.append("--json")
    report = Report(follow(program, name, "--allcalls" in options, RunHealth))
    text = report.json() if "--json" in options else "\n".join(report.lines())
    write_output("play", (text + "\n").encode())
    sys.exit(report.status)


if __name__ == "__main__":
    main(sys.argv[1:])

"""How tests/run and bench/run end: what they wrote is whole, or a sentence
says that it isn't."""

import os
import sys

LOST = 3


def lost(name, why):
    """Ends at once, with nothing more written on standard output."""
    try:
        os.write(2, ("%s: output was lost: %s\n" % (name, why)).encode())
    except OSError:
        pass
    os._exit(LOST)


def status_of(main):
    try:
        return main()
    except SystemExit as end:
        return end.code


def end(name, main):
    """Runs a command, and ends with its status."""
    if sys.stdout is None:
        lost(name, "standard output is closed")
    try:
        status = status_of(main)
        sys.stdout.flush()
    except BrokenPipeError:             # whoever reads has gone
        os.dup2(os.open(os.devnull, os.O_WRONLY), sys.stdout.fileno())
        status = 1
    except KeyboardInterrupt:
        status = 130
    except OSError as error:
        lost(name, error.strerror)
    sys.exit(status)

"""The table of calls: the name of each, and the function that plays it.

A function takes the link and the call's arguments, changes the link, and
gives the letter and the number of the call's line in the listing.
"""

from simulator.credit import credit
from simulator.lend import lend
from simulator.request import request
from simulator.reset import reset
from simulator.tick import tick

CALLS = {
    "request": request,
    "credit": credit,
    "tick": tick,
    "lend": lend,
    "reset": reset,
}


def answer(link, call):
    """Play one call, or what is no call: the letter and the number."""
    if call is None:
        return "R", 16
    name, *arguments = call
    return CALLS[name](link, *arguments)

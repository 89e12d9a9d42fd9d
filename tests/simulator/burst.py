"""Burst: single requests, one after the other (rules 11.1 and 11.2)."""

from simulator.request import request

HANDLED = 16            # records of a burst that are handled
UNTOUCHED = 255, 255    # what allcalls has in a record before the call


def filled(letter, number):
    """The result number and the position of a request's answer."""
    return (0, number) if letter == "G" else (number, 0)


def burst(link, words):
    """The result and the position of each record after the call, one after
    the other as the link comes to them."""
    for word in words[:HANDLED]:
        yield filled(*request(link, word))
    for _ in words[HANDLED:]:
        yield UNTOUCHED

"""./dome play --ahead: what is gained by hand, and that nothing else moves."""

from front_door.command import trouble
from front_door.dome_tree import DONE, in_trees, rows

# A stream that has a tile in each slot and asks once a frame, rule 24.2 by
# hand.  Alone on one link it asks in slots 0, 3, 6 and 9, and is granted the
# next slot each time: no slot lies between the one in which its tile is due
# and the tile's own.  Over two links, on the first of which another is greedy
# and asks first: that one has slots 1, 3, 6 and 9 there, and the stream has 2,
# 4, 7 and 10.  On the second it asks in slots 2, 4 and 7 and is granted 3, 6
# and 9, since its share of a frame is spent from slot 3 on.  The tiles of
# slots 6 and 9 are due in slots 4 and 7, and leave in the slots after them.
# They came to the source in slots 0, 1 and 2: delays 3, 4, 6 for 3, 5, 7.
ALONE = """\
dome F=3 W=2 N=40
stream a from=0 to=1 share=1 cells=10
"""
GREEDY = """\
dome F=3 W=2 N=40
stream b from=0 to=1 share=1 cells=10
stream a from=0 to=2 share=1 cells=10
"""
BY_HAND = (
    (ALONE, (), ["a", "4", "4", "3", "3.0", "5"],
     ["a", "4", "4", "3", "3.0", "5"], ["0", "0.0"],
     "0 times a tile left a link ahead of its slot, 0 of them on its last "
     "link, where it came sooner: by 0 slots in all."),
    (GREEDY, ("--greedy", "b"), ["a", "4", "4", "3", "5.0", "7"],
     ["a", "4", "4", "3", "4.3", "6"], ["2", "0.7"],
     "2 times a tile left a link ahead of its slot, 2 of them on its last "
     "link, where it came sooner: by 2 slots in all."))
SHOW = """\
dome F=8 W=4 N=255
stream main from=0 to=63 share=2 burst=3
stream comet from=48 to=63 share=1
stream east from=0 to=7 share=2 cells=9
stream row from=1 to=15 share=1 cells=5
stream poor from=2 to=7 share=1 cells=1
"""
AHEAD, SOONER = 9, 10           # columns


def gains_by_hand(tree):
    for show, others, before, after, gained, sentence in BY_HAND:
        words = ("play", "-", "--slots", "10", "--rate", "a=1", *others)
        ended = [tree.start(*words, *more, input=show.encode())
                 for more in ((), ("--ahead",))]
        found = [rows(one)["a"][:6] for one in ended]
        columns = rows(ended[1])["a"][AHEAD:SOONER + 1]
        if [*found, columns] != [before, after, gained] or (
                sentence not in ended[1].output.decode()):
            return "%s: %s %s" % (show, found, ended[1].output.decode())
    return None


def in_the_bounds(name, usual, ahead, quiet):
    """Rules 24.5, 24.7 and 24.8: what is wrong with a stream, or None."""
    if usual[1:3] != ahead[1:3] or int(usual[3]) > int(ahead[3]):
        return "%s: %s became %s" % (name, usual, ahead)
    if name in quiet and usual[:9] != ahead[:9] or (
            name in quiet) != (ahead[AHEAD] == "0"):
        return "%s sends ahead or not: %s became %s" % (name, usual, ahead)
    if ahead[6] != "-" and int(ahead[5]) > int(ahead[6]):
        return "%s is past its bound: %s" % (name, ahead)
    return None


def nothing_else_moves(tree):
    """The same requests and grants, whoever is greedy or late; these send
    nothing ahead, nor does a stream that lacks cells.  All others do."""
    for more, quiet in (((), ("poor",)),
                        (("--greedy", "east"), ("poor", "east")),
                        (("--late", "row", "--greedy", "main"),
                         ("poor", "row", "main"))):
        for seed in "123":
            words = ("play", "-", "--slots", "500", "--seed", seed, *more)
            ended = [tree.start(*words, *last, input=SHOW.encode())
                     for last in ((), ("--ahead",))]
            usual, ahead = map(rows, ended)
            wrong = trouble(ended[1], DONE) or next(filter(None, (
                in_the_bounds(name, usual[name], ahead[name], quiet)
                for name in usual)), None)
            if wrong:
                return "%s %s: %s" % (more, seed, wrong)
    return None


def tests(programs):
    return in_trees((gains_by_hand, nothing_else_moves), programs)

"""What a missing tool leaves out is said with its number of tests, and fails
unless it was named."""

from driver.left_out import Part, lines


class Counted:
    name = "allcalls"
    passed = 40
    failed = 2


PARTS = [Part("cc", "the C side", 7, ("allcalls", "allcalls")),
         Part("node", "the keys of a page", 3, ())]
SAID = ["left out, since cc is not here: the C side, 91 tests",
        "left out, since node is not here: the keys of a page, 3 tests"]


def told(words, more, missed):
    found = lines(PARTS, [Counted()], words)
    return found != (SAID + more, missed) and str(found)


def none_is_named():
    return told("", ["NAZGOLV_WITHOUT has to name cc",
                     "NAZGOLV_WITHOUT has to name node"], 2)


def one_is_named():
    return told("node", ["NAZGOLV_WITHOUT has to name cc"], 1)


def each_is_named():
    return told("cc, node", [], 0) or told("node,cc,rustc", [], 0)


def a_name_of_no_tool():
    return told("cc,node,gcc", ["NAZGOLV_WITHOUT names gcc, which is none of "
                                "cc, c++, rustc, node, groff, valgrind, "
                                "sanitiser"], 1)


def nothing_is_left_out():
    found = lines([], [Counted()], "")
    return found != ([], 0) and str(found)


TESTS = (none_is_named, one_is_named, each_is_named, a_name_of_no_tool,
         nothing_is_left_out)


def tests(_):
    for test in TESTS:
        yield "left out: " + test.__name__.replace("_", " "), test

"""Each public entry point has two slips of its own that must be refused.

Entry points are what CRATES names: the public methods of the link, the exports
for C, and the functions that a library offers at its root, but for HELPERS.
In a crate with one entry point all slips are its own.  In one with several a
slip's name begins with the entry point's, without `nazgolv_`; where two names
would do, the longer one has it: `mesh_over_as_mesh` is of `mesh_over`.  Slips
with other names are of the crate's definitions or of what its entry points
share.  One of the two may stand in a crate below that BELOW names, where its
fact is decided and a check is quicker.

That an edit is refused is tried by `rt ci`, and that each of its slips is by
`tests/slips`; here their lines are read."""

import re

from front_door import slips
from front_door.command import ROOT
from front_door.proof_files import passed_on

TWO = 2
METHOD = re.compile(r"^    pub fn (\w+)", re.MULTILINE)
EXPORT = re.compile(r'^pub extern "C" fn nazgolv_(\w+)', re.MULTILINE)
AT_ROOT = re.compile(r"^pub fn (\w+)\(", re.MULTILINE)
OF_LINK = re.compile(r"^impl Link \{\n(.*?)^\}", re.MULTILINE | re.DOTALL)

# How the entry points of each crate are found.
CRATES = {
    "link": "methods", "nazgolv": "exports", "plan": "root", "burst": "root",
    "playback": "root", "program": "root", "planwords": "root",
    "meshwords": "root", "sharewords": "root", "extrawords": "root",
    "programmewords": "root", "mesh": "root", "shares": "root",
    "extras": "root", "week": "root", "delay": "root",
    "delaywords": "root", "questions": "root", "show": "root",
    "showwords": "root", "showinput": "root", "trace": "root",
    "crossing": "root", "faults": "root", "faultwords": "root",
    "weekwords": "root"}

# Where the second slip of an entry point may stand.
BELOW = {"link": ("tables",), "nazgolv": ("imagemodel", "link")}

# Entry points whose slips begin with another word.
CALLED = {"show": {"check_link": "link_refusal", "check": "refusal"}}

# Public functions that others are built from.
HELPERS = {
    # a burst on an array, for callers, and one of its requests
    "burst": {"burst_first", "reply_to"},
    "program": {"start"},               # the state before any input
    "questions": {"start"},             # likewise
    "showinput": {"start"},             # likewise
    "mesh": {"any_over", "link_from", "link_to"}}

# What the table above has to find, whatever else it finds.
KNOWN = {
    "link": "fresh request credit tick lend reset",
    "nazgolv": "fresh check request credit tick lend reset play",
    "plan": "read write", "burst": "burst", "playback": "play",
    "program": "feed finish", "planwords": "plan room read",
    "meshwords": "mesh mesh_over", "sharewords": "count",
    "extrawords": "extras", "programmewords": "programme",
    "mesh": "admit measure", "shares": "count", "extras": "choose",
    "week": "plan_at", "delay": "delay", "delaywords": "delay",
    "questions": "feed finish", "show": "write check_link check",
    "showwords": "show", "showinput": "feed finish",
    "trace": "step write_burst write_plan",
    "crossing": "serve cross shown",
    "faults": "tell_if say", "faultwords": "faults",
    "weekwords": "week_faults"}


def sources(crate):
    return [path.read_text()
            for path in sorted((ROOT / "crates" / crate / "src").glob("*.rt"))]


def found(crate):
    """The names of a crate's entry points."""
    if CRATES[crate] == "methods":
        return [name for text in sources(crate)
                for block in OF_LINK.findall(text)
                for name in METHOD.findall(block)]
    if CRATES[crate] == "exports":
        return EXPORT.findall("\n".join(sources(crate)))
    root = (ROOT / "crates" / crate / "src/lib.rt").read_text()
    passed = [name for _, name in passed_on(root) if name[0].islower()]
    return [name for name in AT_ROOT.findall(root) + passed
            if name not in HELPERS.get(crate, ())]


def slips_of(crate):
    return [slip for path in slips.edits(crate) for slip in slips.slips(path)]


def owner(names, label, called):
    """The entry point that an edit is of, or None."""
    if len(names) == 1:
        return names[0]
    fitting = [name for name in names
               if label.startswith(called.get(name, name) + "_")]
    return max(fitting, key=lambda name: len(called.get(name, name)),
               default=None)


def own_slips(crate, names, where):
    """How many slips of a crate each entry point has."""
    called = CALLED.get(crate, {})
    owners = [owner(names, slip.name, called) for slip in slips_of(where)]
    return {name: owners.count(name) for name in names}


def counted(crate):
    """Of each entry point its slips: in its crate, and one at most below."""
    names = found(crate)
    here = own_slips(crate, names, crate)
    under = [own_slips(crate, names, where) for where in BELOW.get(crate, ())]
    return {name: (here[name], min(1, sum(each[name] for each in under)))
            for name in names}


def two_each():
    few = ["%s::%s has %d, and below %d" % (crate, name, own, under)
           for crate in CRATES
           for name, (own, under) in counted(crate).items()
           if own < 1 or own + under < TWO]
    return ", ".join(few) or None


def all_found():
    """The entry points are found where they are looked for."""
    lost = ["%s::%s" % (crate, name) for crate, names in KNOWN.items()
            for name in names.split() if name not in found(crate)]
    return lost and "not found: " + ", ".join(lost)


def wrong_edit(path):
    """What is wrong with an edit, or None."""
    found = slips.slips(path)
    if not all(slip.words and slip.steps for slip in found):
        return "a slip doesn't say what it breaks, or changes nothing"
    crate = path.parts[-3]
    alone = [slips.misfit(crate, slip.steps) for slip in found]
    steps = [step for slip in found for step in slip.steps]
    return (slips.misfit(crate, steps) or next(filter(None, alone), None)
            or slips.unfit(path))


def all_fit():
    wrong = ["%s/%s: %s" % (path.parts[-3], path.stem, wrong_edit(path))
             for path in slips.edits() if wrong_edit(path)]
    return "; ".join(wrong) or None


def no_name_twice():
    names = ["%s/%s" % (slip.crate, slip.name)
             for path in slips.edits() for slip in slips.slips(path)]
    return ", ".join({name for name in names if names.count(name) > 1}) or None


def tests(_):
    yield "must-fail: each entry point is found", all_found
    yield "must-fail: each entry point has two slips of its own", two_each
    yield "must-fail: each edit fits its file, each slip by itself", all_fit
    yield "must-fail: no slip's name stands twice", no_name_twice

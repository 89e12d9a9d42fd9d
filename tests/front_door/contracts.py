"""No contract is silent.  Where a function promises something of all that meet
a condition, there is something that meets it whenever what the function asks
holds, or else what it promises leaves one answer.

Each promise, and each definition that it is made of, is read for the shape
'for all .. such that'.  One of these has to hold of it:

- some number meets the condition: `i < 16`, or 'not 0';
- the function asks that there is one: `SomeRequest`, of the same conditions and
  no others;
- the function's other promises are equations for all that it leaves: of what it
  hands back, `result`, and of each thing that it was lent to change;
- it is what an output gets where it takes all that is written, which is the
  system's to say;
- SETTLED names a theorem that says so.

A function or a definition with such a promise and nothing of these is told."""

import re

from front_door.command import ROOT, start, trouble
from front_door.contract_files import (
    CRATES, Clause, Reader, bare, functions, parts, promises)
from front_door.pages import page
from front_door.proof_files import declarations

ONE_LINK = ("link/proofs/OneState.antt", "one_link", "SoundLink")
# For each definition the theorem after which it leaves one answer, its file,
# and what it has to be about.
SETTLED = {
    # some crossing is read of any two states
    "crossing/Reading Comes": (
        "crossing/proofs/OneAnswer.antt", "one-outcome", "Comes"),
    "crossing/Reading Passes": (
        "crossing/proofs/OneAnswer.antt", "one-pass", "Passes"),
    "extras/Best Best": ("extras/proofs/Promises.antt", "one-best", "Best"),
    # a link that is sound and reads as given: each byte but the bounds
    "link/Sound Sound": ONE_LINK,
    "link/Sound SoundFlow": ONE_LINK,
    "plan/Reading Valid": ONE_LINK,
    "model/Plan Accepted": ONE_LINK,
    "model/Plan FittingEntry": ONE_LINK,
    # the bounds: nothing that is read of a link depends on them
    "tables/Bounds AtMost": ONE_LINK,
    # what a store leaves: every part beside it
    "state/Parts Beside": (
        "state/proofs/Parts.antt", "part-beside", "Beside"),
    "timing/File Split": (
        "timing/proofs/OneAnswer.antt", "one_split", "Split"),
    "timing/File Streak": (
        "timing/proofs/OneAnswer.antt", "one-streak", "Streak"),
    "unbooked/Bits Lowest": (
        "unbooked/proofs/WordBits.antt", "one-lowest", "Lowest"),
    "window/Ranges All": ("window/proofs/OneAnswer.antt", "one-test", "All"),
    "window/Ranges LastIn": (
        "window/proofs/OneAnswer.antt", "one_last", "LastIn"),
    "window/Window FromRank": (
        "window/proofs/Ranks.antt", "one_rank", "FromRank"),
    "window/Window Ticked": (
        "window/proofs/OneAnswer.antt", "one-tick", "Ticked"),
}
# What a contract of a link's may ask for and ask no more than its invariant.
INVARIANT = re.compile(
    r"(SoundLink \w+(\.link)?|StateIn plan w s\.(now|old)|Valid plan"
    r"|Regular state)$")
ROOM = re.compile(r"((said\.)?room|7|100) ≤ length out\.old$")
BELOW = re.compile(r"(\w+) < [1-9]\d*$")
NOT_ZERO = re.compile(r"\(?(\w+) (?:≡ 0 → ⊥\)|≢ 0\)?)$")
SOME = re.compile(r"Some\w* \(λ ([\w ]+)\. (.*)\)$")
LENT = re.compile(r"(\w+): &(?:'\w+ )?mut\b")
TAKEN = re.compile(r"OnTrue result \(Appends \(W\.contents output\.old\) "
                   r"\(W\.contents output\.new\) \(take end out\.now\)\)$")
# What the library says of lists and bytes, which are there.
OF_THE_LIBRARY = {"List", "Appends", "IfOk", "IfSome", "OnOk"}
BOUND = re.compile(r"result(?:\.\w+)* [≤<] [^×≡]*$")
# What is said of what a result holds, which says nothing where it holds none.
HOLDS = re.compile(r"(?:IfOk|IfSome|OnOk) \(?result\b")
WHOLE = re.compile(r"(?:\w+\.)?(?:\w+ )?result ≡ |(?:ReadAs|ComesOf) .* result$")
# What they hand back is a clock's or an input's.
OUTSIDE = {"timing::clock::nanoseconds", "timing::clock::since",
           "timing::clock::cost", "timing::input::read_full"}


# ---- that there is one

def variables(bound):
    """The names of bound variables."""
    return [name for group in bound
            for names in re.findall(r"[({]([^:(){}]+) :", group)
            for name in names.split()]


def a_number_meets(spoken):
    """Each condition is on a variable of its own, and some number meets it."""
    found = [BELOW.match(each) or NOT_ZERO.match(each)
             for each in spoken.asked]
    names = [each.group(1) for each in found if each]
    return (all(found) and len(set(names)) == len(names)
            and set(names) <= set(variables(spoken.bound)))


def is_asked_for(spoken):
    """What the function asks is that there is one, which meets just this."""
    wanted = [bare(each) for each in spoken.asked]
    some = [SOME.match(part) for clause in spoken.function.requires
            for part in parts(clause.text, " × ")]
    return any(each and each.group(1).split() == variables(spoken.bound)
               and [bare(part) for part in parts(each.group(2), " × ")]
               == wanted for each in some)


def equations_are_beside(spoken):
    """The other promises are equations for all that the function leaves."""
    function = spoken.function
    others = [clause.text for clause in function.ensures
              if clause is not spoken.clause]
    left = [lent + ".new ≡ " for lent in LENT.findall(function.signature)]
    if "->" in function.signature:
        left.append("result ≡ ")
    return left and all(any(text.startswith(each) for text in others)
                        for each in left)


def why(spoken):
    """Why what is promised is not silent, or None."""
    if a_number_meets(spoken):
        return "some number meets it"
    if is_asked_for(spoken):
        return "it is asked for"
    if spoken.where in SETTLED:
        return SETTLED[spoken.where][1]
    if equations_are_beside(spoken):
        return "equations stand beside it"
    if TAKEN.match(spoken.clause.text):
        return "the system says whether it does"
    return None


def told(spoken):
    return "%s: %s such that %s%s" % (
        spoken.function.title(), " ".join(spoken.bound) or "it",
        ", ".join(spoken.asked), spoken.where and " by " + spoken.where or "")


def all_spoken():
    return [spoken for promise in promises() for spoken in promise.found]


def none_is_silent():
    wrong = [told(spoken) for spoken in all_spoken() if not why(spoken)]
    return "; ".join(wrong) or (
        len(all_spoken()) < 100 and "only %d are read" % len(all_spoken()))


def each_definition_is_found():
    """Else nothing would be read of what it says.  A list or a table in a
    record is something that there is, and says nothing; of what a result
    holds the words of the library say what stands behind them."""
    unknown = {word for promise in promises() for word in promise.unknown}
    unknown -= OF_THE_LIBRARY
    return unknown and "not found: " + ", ".join(sorted(unknown))


def statement_of(name, where):
    for each in declarations(CRATES / where):
        if each.theorem and each.name == name:
            return each.statement()
    return ""


def the_theorems_are_there():
    wrong = ["%s in %s" % (name, where)
             for where, name, about in set(SETTLED.values())
             if about not in re.findall(r"\w+", statement_of(name, where))]
    used = {spoken.where for spoken in all_spoken()}
    wrong += ["%s, which no promise has" % where
              for where in SETTLED if where not in used]
    return "; ".join(sorted(wrong))


# ---- what is asked for

def shown():
    """The functions that a crate has for others."""
    return [each for each in functions() if each.shown == "pub "]


def says_too_little(function):
    """It hands something back or changes it, and promises bounds at most, of
    the whole or of fields."""
    bounds = [BOUND.match(bare(part)) for clause in function.ensures
              for part in parts(bare(clause.text), " × ")]
    return all(bounds) and ("->" in function.signature
                            or "&mut" in function.signature)


def each_promises_something():
    """More than a bound, but for what a clock says or an input has."""
    wrong = {each.title() for each in shown() if says_too_little(each)}
    return wrong != OUTSIDE and "nothing or a bound alone: " + ", ".join(
        sorted(wrong ^ OUTSIDE))


def half_told(function):
    """Its result is told where it holds something, and nowhere the whole."""
    texts = [clause.text for clause in function.ensures]
    return any(HOLDS.match(text) for text in texts) and not any(
        WHOLE.match(text) for text in texts)


def a_result_is_told_whole():
    """What a result holds is told beside what the whole of it is."""
    told_so = [each for each in shown()
               if any(HOLDS.match(clause.text) for clause in each.ensures)]
    half = Made([], ["IfOk result (λ n. n ≡ x)"], " -> Result<u8, R>")
    return (not half_told(half) and "half a promise is taken"
            or len(told_so) < 3 and "only %d are read" % len(told_so)
            or ", ".join(each.title() for each in told_so if half_told(each)))


def asks(function):
    """Nothing, a link's invariant, room for the answer, or more."""
    texts = [clause.text for clause in function.requires]
    if not texts:
        return "nothing"
    if all(INVARIANT.match(text) for text in texts):
        return "the invariant"
    return "room" if all(ROOM.match(text) for text in texts) else "more"


def counted():
    found = [asks(each) for each in shown()]
    return "%d functions for others %d ask nothing, %d a link's invariant, " \
        "%d room for their answer and %d more" % (
            len(found), found.count("nothing"), found.count("the invariant"),
            found.count("room"), found.count("more"))


def the_decision_counts_them():
    text = " ".join(page("docs/DECISIONS.md").split())
    return counted() not in text and "it has to say: of the " + counted()


def each_that_asks_more_is_in_a_group():
    """The decision names the crate of each."""
    after = page("docs/DECISIONS.md").partition("**182.")[2]
    text = after.partition("\n\n")[0]
    crates = {each.crate for each in shown() if asks(each) == "more"}
    lost = sorted(crate for crate in crates if "`%s`" % crate not in text)
    return lost and "not named: " + ", ".join(lost)


# ---- that a silent one is told

class Made:
    """A function with this contract, in the place of one of link's."""

    def __init__(self, requires, ensures, signature=" -> u8"):
        like = next(each for each in functions()
                    if each.title() == "link::request::request")
        self.path, self.crate, self.name = like.path, like.crate, "made"
        self.signature = signature
        self.requires = [Clause("", text) for text in requires]
        self.ensures = [Clause("", text) for text in ensures]

    def title(self):
        return "link::request::made"

    def silent(self):
        return [told(spoken) for clause in self.ensures
                for spoken in Reader(self, clause).found if not why(spoken)]


RULE = ("((p : Plan) (x : ℕ) → RequestIn p count e w fields x s.now"
        " → result ≡ x)")
BYTES = ("OnTrue result (Appends (W.contents output.old) (W.contents output.new) "
         "(take end out.now))")
GIVEN = "SomeRequest (λ p x. RequestIn p count e w fields x s.now)"


def a_silent_one_is_told():
    """The search's contract of before, and others of its shape."""
    silent = [Made([], [RULE]), Made(["i < 16"], [RULE]),
              Made([GIVEN.replace(" x s.now", " 7 s.now")], [RULE]),
              Made([], ["((k : ℕ) → k < 0 → result ≡ k)"]),
              Made([], ["((k : ℕ) → k < 4 → 3 < k → result ≡ k)"]),
              Made([GIVEN.replace("fields x", "fields x extra")], [RULE]),
              Made([GIVEN.replace("s.now)", "s.now × (p ≡ p))")], [RULE]),
              Made([], [RULE, "result ≡ 0"], "(out: &mut [u8]) -> u8"),
              Made([], [RULE, "out.new ≡ out.old"], "(out: &mut [u8]) -> u8"),
              Made([], ["InFrame w frame position × " + RULE]),
              Made([], [bare(RULE)]), Made([], ["OnTrue result (r ≡ 0)"]),
              Made([], [BYTES.replace("out.now", "w.now")])]
    spoken = [Made([], [BYTES]), Made([GIVEN], [RULE]), Made([GIVEN], [bare(RULE)]),
              Made([], [RULE, "result ≡ 0"]),
              Made([], [RULE, "result ≡ 0", "out.new ≡ out.old"],
                   "(out: &mut [u8]) -> u8"),
              Made([], ["((k : ℕ) → k < 4 → result ≡ k)"]),
              Made([], ["((k : ℕ) → (k ≡ 0 → ⊥) → result ≡ 0)"]),
              Made([], ["((k : ℕ) → k ≢ 0 → result ≡ 0)"]),
              Made([], ["((k : ℕ) → result ≡ 0)"])]
    wrong = [each.ensures[0].text for each in silent if not each.silent()]
    wrong += ["not silent: " + each.ensures[0].text
              for each in spoken if each.silent()]
    return "; ".join(wrong)


def bounds_alone_are_told():
    """Of what is handed back, and of its fields."""
    bounds = (["result < 4"], ["result.position < 256"],
              ["(result.number ≤ 24) × (result.position < 256)"], [])
    more = (["result ≡ 3"], ["result < 4", "result ≡ 3"],
            ["(result < 4) × (result ≡ 3)"])
    wrong = ["not told: %s" % each for each in bounds
             if not says_too_little(Made([], each))]
    wrong += ["told: %s" % each for each in more
              if says_too_little(Made([], each))]
    return "; ".join(wrong)


def the_list_has_each():
    """What tests/contracts writes, and how it ends with a word too many."""
    ended = start([ROOT / "tests/contracts"])
    lines = ended.output.decode().splitlines()
    lost = [each.title() for each in shown() if each.title() not in lines]
    return trouble(ended, 0) or "; ".join(lost) or (
        lines[-1] != "Of the %s." % counted() and lines[-1]) or trouble(
            start([ROOT / "tests/contracts", "all"]), 2, b"",
            "tests/contracts: it takes no words")


TESTS = (none_is_silent, each_definition_is_found, the_theorems_are_there,
         each_promises_something, a_result_is_told_whole,
         the_decision_counts_them,
         each_that_asks_more_is_in_a_group, a_silent_one_is_told,
         bounds_alone_are_told, the_list_has_each)


def tests(_):
    for test in TESTS:
        yield "contracts: " + test.__name__.replace("_", " "), test


# ---- the list

def conditions(spoken):
    return "of all %s with %s" % (" ".join(spoken.bound) or "results",
                                  ", ".join(spoken.asked))


def listed():
    """Each function for others: what it asks, and what its promises say of
    all that meet a condition, or the definitions that do."""
    for each in shown():
        yield each.title()
        for clause in each.requires:
            yield "    asks " + clause.text
        mine = [spoken for spoken in all_spoken() if spoken.function is each]
        for spoken in mine:
            if not spoken.where:
                yield "    %s: %s" % (conditions(spoken), why(spoken))
        by = sorted({spoken.where for spoken in mine if spoken.where})
        if by:
            yield "    by " + ", ".join(by)
    yield ""
    for line in sorted({"%s %s: %s" % (
            spoken.where, conditions(spoken), why(spoken))
            for spoken in all_spoken() if spoken.where}):
        yield line

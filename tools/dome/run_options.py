"""The words after ./dome play and ./dome page."""

from dome.show_file import NUMBER as SEED, few, listed, quoted


class Options:
    def __init__(self):
        self.path = None        # the first of the files
        self.files = []
        self.slots = 1000
        self.seed = 1
        self.rate = None        # of streams that have none of their own
        self.rates = {}
        self.greedy = set()
        self.late = set()
        self.ahead = False


def number(text, most):
    return int(text) if text.isascii() and text.isdigit() and (
        len(text) < 10 and 0 < int(text) <= most) else None


def take_rate(found, value):
    name, equals, text = value.rpartition("=")
    try:
        rate = float(text)
    except ValueError:
        rate = -1
    if not 0 <= rate <= 1 or equals and not name:
        return ("--rate takes a rate of 0 to 1, for one stream as main=0.25 "
                "or for all as 0.25, and has '%s'" % value)
    if equals:
        found.rates[name] = rate
    else:
        found.rate = rate
    return None


def take_option(found, word, value):
    """What is wrong with an option, or None."""
    if value is None:
        return "%s takes a word after it; ./dome --help says which" % word
    if word == "--slots":
        found.slots = number(value, 10000000)
        return None if found.slots else (
            "--slots takes a number from 1 to 10,000,000")
    if word == "--seed":
        found.seed = value
        return None if SEED.match(value) else (
            "--seed takes a number of one to nine digits, and has %s"
            % quoted(value))
    if word == "--rate":
        return take_rate(found, value)
    {"--greedy": found.greedy, "--late": found.late}[word].add(value)
    return None


def read(words, files):
    """The options of a line, and so many files in it; or a sentence."""
    found = Options()
    left = list(words)
    while left:
        word = left.pop(0)
        if word == "--ahead":
            found.ahead = True
        elif word in ("--slots", "--seed", "--rate", "--greedy", "--late"):
            wrong = take_option(found, word, left.pop(0) if left else None)
            if wrong:
                return wrong
        elif word.startswith("--") or len(found.files) == files:
            return "'%s' is no option; ./dome --help has them" % word
        else:
            found.files.append(word)
    found.path = found.files[0] if found.files else None
    return found if len(found.files) == files else (
        "play takes a show file; ./dome --help says more" if files == 1 else
        "page takes a show file and the page's own; ./dome --help says more")


def unknown(found, planned):
    """The sentence of a name that the show has not, or None."""
    names = {s.name for s in planned.show.streams}
    missing = sorted({*found.rates, *found.greedy, *found.late} - names)
    if missing:
        return "the show has no stream %s: its streams are %s" % (
            listed(missing), few([s.name for s in planned.show.streams]))
    return None

"""Show files from seeds, and what each has to come to by the second
simulator: its refusal, or its plan files and index by name."""

import random

from shows.random_shows import numbers
from simulator import mesh
from simulator.shows import lines

BLANKS = (" ", "  ", "\t")
COMMENTS = ("", "", "", "  # a comment", "#", "\t# stream x from=0")


def written(chance, words):
    """Words with blanks between them, and at times a comment after them."""
    text = "".join(word + chance.choice(BLANKS) for word in words)
    return chance.choice(("", " ")) + text.rstrip() + chance.choice(COMMENTS)


def stream_words(chance, name, stream, cells):
    """The words of a stream; cells are given where they are not the usual
    ones."""
    source, destination, share = stream
    words = ["from=%d" % source, "to=%d" % destination, "share=%0*d" % (
        chance.choice((1, 1, 3)), share)]
    if cells is not None:
        words.append("cells=%d" % cells)
    if chance.random() < 0.3:
        words.append("burst=%d" % chance.randint(0, 20))
    chance.shuffle(words)
    return ["stream", name, *words]


def given_cells(chance, share):
    """What cells= says, or None where it is not there."""
    if chance.random() < 0.01:
        return chance.choice((0, 256))
    return chance.choice((None, None, None, share, 2 * share, 3 * share,
                          chance.choice((1, 30, 255))))


class ShowText:
    """A show by chance: the text, its numbers, and its streams' names."""

    def __init__(self, seed):
        chance = random.Random("text %d" % seed)
        found = numbers(seed)
        count = min(64, (len(found) - 3) // 5)
        self.dome = found[:3]
        self.streams = [tuple(found[3 + 3 * i:6 + 3 * i])
                        for i in range(count)]
        self.given = [given_cells(chance, share)
                      for _, _, share in self.streams]
        self.names = ["%s%d" % (chance.choice(("s", "a-b_", "9")), i)
                      for i in range(count)]
        texts = [written(chance, stream_words(chance, *one)) for one in zip(
            self.names, self.streams, self.given)]
        texts.insert(chance.randint(0, count), written(
            chance, ["dome", *("%s=%d" % pair
                               for pair in zip("FWN", self.dome))]))
        self.text = "".join(line + chance.choice(("\n", "\n\n"))
                            for line in texts)

    def expected(self):
        """The lines that rule 25.6 has for its numbers."""
        cells = [(2 * share, 3 * share) if given is None else (given, given)
                 for (_, _, share), given in zip(self.streams, self.given)]
        flat = list(self.dome)
        for part in self.streams + cells:
            flat += part
        return lines(flat)

    def index(self):
        """Rule 25.2: on each link of a stream's way the number of streams
        before it that take the link."""
        taken = {}
        said = []
        for name, (source, destination, _) in zip(self.names, self.streams):
            for hop in mesh.hops(source, destination):
                said.append("%s %d-%d %d" % (name, *hop, taken.get(hop, 0)))
                taken[hop] = taken.get(hop, 0) + 1
        return said

"""A wrapper of the library for C (include/nazgolv.h): a link that keeps its own
image.  It needs no package.  The library is the one that NAZGOLV_LIBRARY names,
else the one that player/build made in this tree, else the system's.
"""

import os
from ctypes import CDLL, c_char_p, c_size_t, c_uint16, c_uint32, c_uint64
from ctypes import create_string_buffer
from pathlib import Path

IMAGES = 4                      # the version of the images
NAME = "libnazgolv.so.%d" % IMAGES
IMAGE_MAX = 8894
IDLE, NONE = 16, 0xFFFFFFFF
RECORD, RESULT = 5, 8           # bytes
RESULTS = {                     # of each call, and the types of what follows the image
    "request": (c_uint64, [c_uint32]),
    "credit": (c_uint64, [c_size_t, c_size_t]),
    "tick": (c_uint64, []),
    "lend": (c_uint64, [c_uint16]),
    "reset": (c_uint64, []),
    "check": (c_uint64, []),
    "play": (c_uint64, [c_char_p, c_size_t, c_char_p, c_size_t]),
    "current": (c_uint32, []),
    "destination": (c_uint32, [c_size_t]),
    "number": (c_uint32, [c_size_t]),
    "owner": (c_uint32, [c_size_t]),
    "held": (c_uint32, [c_size_t, c_size_t]),
}


def load():
    """The library; a sentence where there is none, or one of other images."""
    built = Path(__file__).resolve().parent / "../../target/c" / NAME
    path = os.environ.get("NAZGOLV_LIBRARY") or (
        str(built) if built.exists() else NAME)
    try:
        library = CDLL(path)
        getattr(library, "nazgolv_images_%d" % IMAGES)
    except (OSError, AttributeError) as error:
        raise ImportError(
            "%s is no library of Nazgolv with images of version %d: %s; "
            "player/build makes one, and NAZGOLV_LIBRARY names it"
            % (path, IMAGES, error)) from None
    for name, (result, types) in RESULTS.items():
        call = getattr(library, "nazgolv_" + name)
        call.restype, call.argtypes = result, [c_char_p, c_size_t, *types]
    library.nazgolv_fresh.restype = c_uint64
    library.nazgolv_fresh.argtypes = [c_char_p, c_size_t] * 2
    library.nazgolv_why.restype = library.nazgolv_version.restype = c_char_p
    library.nazgolv_why.argtypes = [c_uint32]
    return library


LIBRARY = load()


class Refused(Exception):
    """A call was refused: its number, and the sentence of docs/REFUSALS.md."""

    def __init__(self, number):
        super().__init__(LIBRARY.nazgolv_why(number).decode())
        self.number = number


def version():
    return LIBRARY.nazgolv_version().decode()


def below(limit, *numbers):
    """ctypes cuts a number that is too wide, which is never right here."""
    for number in numbers:
        if not 0 <= number < limit:
            raise ValueError("%r is not 0 to %d" % (number, limit - 1))


def word(destination, flow, number, departure):
    """A look-ahead word."""
    below(64, destination, flow)
    below(1024, number, departure)
    return destination << 26 | flow << 20 | number << 10 | departure


def value(result):
    """The value of a result, unless it is a refusal."""
    if result >> 32:
        raise Refused(result >> 32)
    return result


class Link:
    """One link.  Two threads don't call on one link at once."""

    def __init__(self, image):
        """Of an image that was stored or sent."""
        self.buffer = create_string_buffer(bytes(image), len(image))
        refusal = self._call("check")
        if refusal:
            raise Refused(refusal)

    @classmethod
    def fresh(cls, plan):
        """Of a plan's bytes, with which nothing was done yet."""
        image = create_string_buffer(IMAGE_MAX)
        value(LIBRARY.nazgolv_fresh(bytes(plan), len(plan), image, IMAGE_MAX))
        return cls(image.raw[:int.from_bytes(image.raw[:2], "little")])

    @property
    def image(self):
        """Its bytes, to store or to send."""
        return self.buffer.raw

    def _call(self, name, *numbers):
        for number, kind in zip(numbers, RESULTS[name][1]):
            below(kind(-1).value + 1, number)
        return getattr(LIBRARY, "nazgolv_" + name)(
            self.buffer, len(self.buffer), *numbers)

    def _seen(self, name, *numbers):
        """What was looked for in the image, or None."""
        found = self._call(name, *numbers)
        return None if found == NONE else found

    def request(self, word):
        """Asks for a slot: the position that is booked."""
        return value(self._call("request", word)) & 1023

    def credit(self, flow, position):
        """A flow's cell falls free from a position on."""
        value(self._call("credit", flow, position))

    def tick(self):
        """Goes on by one slot: the flow that booked it, or None."""
        flow = value(self._call("tick"))
        return None if flow == IDLE else flow

    def lend(self, mask):
        """Lends the current slot to a flow of the mask: that flow."""
        return value(self._call("lend", mask))

    def reset(self):
        """Lets every flow start again, where the link is quiet."""
        value(self._call("reset"))

    def play(self, records):
        """Many calls by one, as records of five bytes: the value of each, and
        for one that is refused a Refused, which is not raised.  Values are
        those of the library: a request's is its word, whose low ten bits are
        the position, and a tick's is IDLE where nobody booked the slot."""
        out = create_string_buffer(RESULT * -(-len(records) // RECORD))
        value(LIBRARY.nazgolv_play(self.buffer, len(self.buffer),
                                   bytes(records), len(records), out, len(out)))
        results = [int.from_bytes(out.raw[at:at + RESULT], "little")
                   for at in range(0, len(out), RESULT)]
        return [Refused(result >> 32) if result >> 32 else result
                for result in results]

    def current(self):
        """CP, the current position: the departure of a tile that has come."""
        return self._seen("current")

    def number(self, flow):
        """What a flow's next word has to carry, or None."""
        return self._seen("number", flow)

    def word(self, flow):
        """A flow's next word, for a tile that has come."""
        destination = self._seen("destination", flow)
        if destination is None:
            raise Refused(8)
        return word(destination, flow, self.number(flow), self.current())

    def owner(self, position):
        """The flow that booked a position, or None."""
        flow = self._seen("owner", position)
        return None if flow == IDLE else flow

    def held(self, flow, position):
        """How many cells a flow holds at a position, or None."""
        return self._seen("held", flow, position)

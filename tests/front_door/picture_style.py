"""The page's stylesheet: dark rooms, narrow windows and paper."""

import re

from front_door.picture_files import SHOW, colours

COLOUR = re.compile(r"--([\w-]+): (#[0-9a-f]{6});")
ANY_COLOUR = re.compile(
    r"#[0-9a-fA-F]{3,8}\b|\b(?:rgb|hsl)a?\(|\b(?:white|black|gr[ae]y|red)\b(?!-)")
DARK = "@media screen and (prefers-color-scheme: dark)"
NARROW = 300        # of 320 pixels, 10 are left free on both sides

# What stands on what, and the least contrast: 4.5 for letters, 3 for marks.
LETTERS = [(ink, ground) for ink in ("ink", "soft")
           for ground in ("paper", "raised", "said", "plot", "alarm")]
MARKS = [(mark, ground) for mark in ("mark", "focus", "line")
         for ground in ("paper", "said", "plot")] + [("mark", "alarm")]


class Style:
    """The stylesheet: its blocks by what stands before them, those of a
    @media rule as one text."""

    def __init__(self):
        text = (SHOW / "page.css").read_text()
        self.text = re.sub(r"/\*.*?\*/", "", text, flags=re.DOTALL)
        self.blocks = [(head.strip(), body) for head, body in re.findall(
            r"([^{}]+)\{((?:[^{}]|\{[^{}]*\})*)\}", self.text)]

    def of(self, head):
        return "".join(body for each, body in self.blocks if each == head)

    def colours(self, head):
        return dict(COLOUR.findall(self.of(head)))

    def declared(self):
        """Each declaration: what stands before its block, a name, a value."""
        for head, body in re.findall(r"([^{}]+)\{([^{}]*)\}", self.text):
            for each in filter(str.strip, body.split(";")):
                name, value = each.split(":", 1)
                yield head.strip(), name.strip(), value.strip()


def every_colour_in_the_dark():
    """Each is there twice, as another colour, and none stands elsewhere."""
    style = Style()
    light, dark = style.colours(":root"), style.colours(DARK)
    same = [name for name in light if light[name] == dark.get(name)]
    values = [value for _, name, value in style.declared()
              if name[2:] not in light]
    loose = [value for value in values if ANY_COLOUR.search(value)]
    unused = [name for name in light
              if not any("var(--%s)" % name in value for value in values)]
    return (set(light) != set(dark) and "other colours: %s" % (
        set(light) ^ set(dark))) or (same and "the same: %s" % same) or (
        (loose or unused) and "loose %s, unused %s" % (loose, unused))


def contrast():
    for head in (":root", DARK):
        named = Style().colours(head)
        missing = [name for pair in LETTERS + MARKS for name in pair
                   if name not in named]
        faint = missing or [
            pair for pairs, least in ((LETTERS, 4.5), (MARKS, 3))
            for pair in pairs
            if colours.contrast(*map(named.get, pair)) < least]
        if faint:
            return "%s: %s" % (head, faint)
    return None


def narrow_window():
    """No length is above what is left of 320 pixels, but for what is at most
    so wide; legends and words may break."""
    wide, unbroken = [], []
    for head, name, value in Style().declared():
        lengths = [float(each) for each in re.findall(
            r"([\d.]+)px", re.sub(r"calc\([^)]*\)", "", value))]
        if name != "max-width" and max(lengths, default=0) > NARROW:
            wide.append("%s: %s" % (head, value))
        if (name, value) == ("white-space", "nowrap"):
            unbroken.append(head)
    return wide and "%s" % wide or (
        unbroken != [".field", ".title strong"] and "%s" % unbroken)


def on_paper():
    """The dark is a screen's; colours are kept, controls left out, and no
    card is cut."""
    paper = " ".join(Style().of("@media print").split())
    missing = [words for words in (
        " print-color-adjust: exact;",
        ".buttons, #slider, #keys { display: none; }",
        "#controls { position: static;",
        ".card, .frame, #said { break-inside: avoid; }") if words not in paper]
    dark = [head for head, _ in Style().blocks
            if "dark" in head and head != DARK]
    return (missing or dark) and "%s %s" % (missing, dark)


TESTS = (every_colour_in_the_dark, contrast, narrow_window, on_paper)


def tests(programs):
    for test in TESTS:
        yield "pictures: style, " + test.__name__.replace("_", " "), test

"""Words behind a head, in lines of at most 80 characters."""

WIDTH, INDENT = 80, 8
BLANK = " " * INDENT


def paragraph(head, text):
    """Words behind a head; most fit one line or two."""
    return laid_out(head.ljust(INDENT) + text, max(len(head), INDENT)) + "\n"


def laid_out(line, least=INDENT):
    """A line whose head has so many letters, in lines; what goes on stands
    behind blanks."""
    if len(line) <= WIDTH:
        return line
    cut = line.rfind(" ", least + 1, WIDTH + 1)
    if cut > 0 and len(line) - cut <= WIDTH - INDENT:
        return "%s\n%s%s" % (line[:cut], BLANK, line[cut + 1:])
    return wrapped(line, least + 1, INDENT)


def filled(head, text, further):
    """Words behind a head, in lines of at most 80 characters, those after the
    first further in."""
    line = head + text
    return (line if len(line) <= WIDTH else wrapped(
        line, len(head) + 1, further)) + "\n"


def wrapped(line, least, further):
    """A line cut at blanks that stand behind its first so many letters; what
    has no blank stays whole."""
    cut, lines = cut_of(line, least), []
    while cut > 0:
        lines.append(line[:cut])
        line = " " * further + line[cut + 1:]
        cut = cut_of(line, further + 1)
    return "\n".join([*lines, line])


def cut_of(line, least):
    """The blank at which a line is cut; 0 or less for none."""
    if len(line) <= WIDTH:
        return 0
    cut = line.rfind(" ", least, WIDTH + 1)
    return cut if cut > 0 else line.find(" ", WIDTH)

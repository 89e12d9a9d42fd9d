"""Every link of a page leads somewhere: to a file or folder that is there, and
to a heading where it names one."""

from front_door.command import ROOT
from front_door.pages import anchors, links


def pages():
    return sorted([*ROOT.glob("*.md"), *ROOT.glob("docs/*.md"),
                   ROOT / "tests/README.md", ROOT / "flights/README.md"])


def leads(path, link):
    """Whether a link of a page does."""
    if link.startswith(("http://", "https://")):
        return True                     # nothing here asks the network
    name, _, heading = link.partition("#")
    target = (path.parent / name).resolve() if name else path
    if ROOT not in target.parents or not target.exists():
        return False
    return not heading or heading in anchors(
        target.read_text(encoding="utf-8"))


def lost_links(path):
    lost = [link for link in links(path.read_text(encoding="utf-8"))
            if not leads(path, link)]
    return lost and "they lead nowhere: " + ", ".join(lost)


def wrong_links_are_told():
    """A file that isn't there, a heading that isn't, and the two that are."""
    path = ROOT / "README.md"
    told = [leads(path, link) for link in (
        "docs/NO.md", "#no-heading", "docs/PROVED.md#no-heading",
        "../outside", "docs/PROVED.md#contracts", "#numbers")]
    return told != [False] * 4 + [True] * 2 and "%s" % told


def tests(programs):
    for path in pages():
        yield ("docs: links of %s" % path.relative_to(ROOT),
               lambda path=path: lost_links(path))
    yield "docs: wrong links are told", wrong_links_are_told

"""./dome page: one file that needs no network, and a script that draws the
mesh and, by click or by key, a stream's way and its delays."""

import json
import os
import re
import shutil
import stat
import subprocess

from driver.left_out import leave_out
from front_door.command import LIMIT, trouble
from front_door.dome_tree import DONE, NOT_DONE, SMALL, in_trees, rows

# A document as far as the script uses one; then the user's keys, and after
# each what is drawn: boxes, lines and those of them on the way, the streams
# that are pressed, and the bars and lines of the histogram.
STUB = """
class Element {
  constructor(kind) {
    this.kind = kind; this.children = []; this.values = {};
    this.listeners = {}; this.textContent = "";
  }
  setAttribute(name, value) { this.values[name] = String(value); }
  append(child) { this.children.push(child); }
  replaceChildren() { this.children = []; }
  addEventListener(kind, listener) { this.listeners[kind] = listener; }
  all() { return [this].concat(...this.children.map((c) => c.all())); }
}
const byId = {};
for (const id of ["dome", "mesh", "links", "streams", "chosen"]) {
  byId[id] = new Element("div");
}
const document = new Element("document");
document.getElementById = (id) => byId[id];
document.createElement = (kind) => new Element(kind);
document.createElementNS = (space, kind) => new Element(kind);
document.querySelectorAll = () => byId.streams.children;
"""
USER = """
function seen() {
  const mesh = byId.mesh.all(), shown = byId.chosen.all();
  const of = (nodes, kind, on) => nodes.filter((n) => n.kind === kind
    && (!on || n.values.class === "way")).length;
  return [of(mesh, "rect"), of(mesh, "rect", true), of(mesh, "line"),
    of(mesh, "line", true),
    byId.streams.children.map((b) => b.values["aria-pressed"] === "true"),
    of(shown, "rect"), of(shown, "line"), of(mesh, "polygon"),
    byId.links.children.length];
}
const found = [seen()];
for (const key of ["j", "j", "j", "k", "Escape", "k"]) {
  document.listeners.keydown({ key });
  found.push(seen());
}
byId.streams.children[1].listeners.click();
found.push(seen());
console.log(JSON.stringify(found));
"""
BARS = 60
# SMALL has main over boards 0, 1 and 9, comet over 1 and 9, and two links.
NONE = [64, 0, 2, 0, [False, False], 0, 0, 2, 2]
MAIN = [64, 3, 2, 2, [True, False], BARS, 1, 2, 2]
COMET = [64, 2, 2, 1, [False, True], BARS, 1, 2, 2]
SEEN = [NONE, MAIN, COMET, MAIN, COMET, NONE, COMET, NONE]


def made(tree, *words):
    out = tree.root / "a.html"
    ended = tree.start("page", tree.file, out, "--slots", "200", *words)
    return ended, out.read_text() if out.exists() else ""


def a_page_of_its_own(tree):
    ended, text = made(tree)
    outside = set(re.findall(r"https?:[^\"'\s]*", text)) - {
        "http://www.w3.org/2000/svg"}
    missing = [word for word in ("prefers-color-scheme: dark", "viewport",
                                 "default-src 'none'", "<title>a.dome")
               if word not in text]
    return trouble(ended, DONE, b"", "a.html' is written") or (
        (outside or missing or re.search(r"@[A-Z]+@", text))
        and "%s %s" % (outside, missing))


def by_key_and_by_click(tree):
    _, text = made(tree)
    script = text.split("<script>\n")[1].split("</script>")[0]
    done = subprocess.run(["node", "-e", STUB + script + USER], timeout=LIMIT,
                          capture_output=True, text=True)
    found = json.loads(done.stdout) if done.returncode == 0 else None
    return found != SEEN and "%s %s" % (found, done.stderr[:300])


def what_is_in_it(tree):
    """The figures are those that play prints."""
    _, text = made(tree, "--greedy", "comet")
    data = json.loads(re.search(r"const dome = (.*);\n", text).group(1))
    ended = tree.start("play", tree.file, "--slots", "200", "--greedy",
                       "comet")
    wanted = [(r[0], int(r[1]), int(r[2]), int(r[3]), int(r[5]),
               None if r[6] == "-" else int(r[6]))
              for r in rows(ended).values()]
    found = [(s["name"], s["asked"], s["granted"], s["arrived"],
              s["greatest"], s["bound"]) for s in data["streams"]]
    counted = [sum(count for _, count in s["delays"]) for s in data["streams"]]
    return (found != wanted or counted != [w[3] for w in wanted]) and (
        "%s for %s" % (found, wanted))


def no_place_for_it(tree):
    """A folder, and a device that takes nothing and stays what it is."""
    for place in (tree.root, "/dev/full"):
        wrong = trouble(tree.start("page", "-", place, input=SMALL.encode()),
                        NOT_DONE, b"", "can't be written")
        if wrong:
            return "%s: %s" % (place, wrong)
    return not stat.S_ISCHR(os.stat("/dev/full").st_mode) and (
        "/dev/full is no device any more")


def not_over_the_show(tree):
    wrong = trouble(tree.start("page", tree.file, tree.file), NOT_DONE, b"",
                    "would be written over")
    return wrong or tree.file.read_text() != SMALL and "the show is gone"


def to_standard_output(tree):
    ended = tree.start("page", tree.file, "-", "--slots", "200")
    _, text = made(tree)
    return trouble(ended, DONE, text.encode())


def tests(programs):
    by_node = (by_key_and_by_click,)
    if not shutil.which("node"):
        leave_out("node", "the keys of a dome's page", len(by_node))
        by_node = ()
    return in_trees((a_page_of_its_own, *by_node, what_is_in_it,
                     no_place_for_it, not_over_the_show, to_standard_output),
                    programs)

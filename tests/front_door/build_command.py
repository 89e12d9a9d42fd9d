"""tools/build: what it asks of rt, in which folder, and where it puts what rt
leaves there."""

import os

from front_door.command import start, trouble
from front_door.tree import Tree, named

NOT_BUILT = 2
LIBRARY = "target/staticlib/libnazgolv.a"
# An rt that leaves what it is asked for, which says so.
LEAVES = """\
name=${folder##*/}
mkdir -p "$folder/out"
case $1 in
run) file=$folder/out/$name ;;
lib) file=$folder/out/lib$name.a ;;
*) exit 2 ;;
esac
printf '#!/bin/sh\\necho %s\\n' "$name" >"$file"
[ "$1" = lib ] || chmod 755 "$file"
"""


class BuildTree(Tree):
    script, crate = "tools/build", "domelink"

    def __init__(self, folder, program):
        super().__init__(folder, program)
        for name in ("nazgolv", "domeplan"):
            (self.root / "crates" / name).mkdir()
        self.program.unlink()

    def only_tools(self):
        super().only_tools()
        os.symlink("/bin/chmod", self.root / "bin/chmod")


def each_by_its_command(tree):
    """A program by rt run, the library by rt lib, and each once."""
    tree.rt(LEAVES)
    ended = tree.start("domelink", "nazgolv", "domeplan")
    says = ["tools/build: %s is missing: it is proved and built first" % name
            for name in ("target/bin/domelink", LIBRARY, "target/bin/domeplan")]
    lines = ended.errors.splitlines()
    if ended.status or ended.output or len(lines) != len(says) or not all(
            line.startswith(words) for words, line in zip(says, lines)):
        return "status %d: %s" % (ended.status, ended.errors)
    asked = ("run in crates/domelink\nlib in crates/nazgolv\n"
             "run in crates/domeplan\n")
    made = [start([tree.root / "target/bin" / name]).output
            for name in ("domelink", "domeplan")]
    return (trouble(tree.start("domelink", "nazgolv", "domeplan"))
            or tree.rt_words() != asked and tree.rt_words()
            or made != [b"domelink\n", b"domeplan\n"] and "%s" % made
            or (tree.root / LIBRARY).read_text() != "#!/bin/sh\necho nazgolv\n"
            and "another library")


def library_that_fails(tree):
    """It is said, and what comes after it is not begun."""
    tree.rt("exit 1\n")
    ended = tree.start("nazgolv", "domelink")
    return (ended.status != NOT_BUILT and "status %d" % ended.status
            or tree.rt_words() != "lib in crates/nazgolv\n" and tree.rt_words()
            or "rt lib in crates/nazgolv failed" not in ended.errors
            and ended.errors)


def as_another_command(tree):
    """Its sentences begin with the other command's name."""
    tree.rt(LEAVES)
    return trouble(tree.start("--for", "plan", "domeplan"), 0, b"",
                   "plan: target/bin/domeplan is missing")


def wrong_words(tree):
    tree.rt("exit 0\n")
    for words, says in ((["link"], "'link' is none that it builds"),
                        (["domelink", ""], "'' is none that it builds"),
                        (["--for", "plan"], "--for takes a command and what"),
                        (["--all"], "'--all' is none that it builds")):
        wrong = trouble(tree.start(*words), NOT_BUILT, b"", says)
        if wrong:
            return "%s: %s" % (words, wrong)
    return tree.rt_words() and "rt was started with " + tree.rt_words()


def tests(programs):
    yield from named(BuildTree, (each_by_its_command, library_that_fails,
                                 as_another_command, wrong_words), programs)

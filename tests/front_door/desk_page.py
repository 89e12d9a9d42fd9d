"""docs/DESK.md: domeplan answers as the table says, and ./plan does what the
page shows."""

import shlex

from front_door.command import ROOT, start, trouble
from front_door.pages import help_lacks, inline_code, page, table
from front_door.plan_tree import PlanTree, DONE, REFUSED
from front_door.progress import crates_below
from front_door.tree import in_a_tree

PAGE = "docs/DESK.md"
WORDS = ("plan", "room", "read", "mesh", "mesh-over", "count", "extras",
         "programme", "delay", "faults", "week-faults")


def answers(domeplan):
    """Every word is asked, and each line has the answer beside it."""
    rows = [inline_code(row[0] + row[1]) for row in
            table(page(PAGE), "Line")]
    asked = "".join(line + "\n" for line, answer in rows).encode()
    right = "".join(answer + "\n" for line, answer in rows).encode()
    missing = set(WORDS) - {line.split()[0] for line, answer in rows}
    return missing and "not asked: %s" % sorted(missing) or trouble(
        start([domeplan], input=asked), output=right)


def blocks():
    """The lines of each block of code."""
    found = []
    for line in page(PAGE).splitlines() + [""]:
        if line.startswith("    "):
            found.append(line.strip())
        elif found:
            yield found
            found = []


def files():
    """The texts that the page shows, by the names on their first lines."""
    return {block[0][2:].partition(":")[0]: "\n".join(block) + "\n"
            for block in blocks() if block[0].startswith("# ")}


def commands():
    """Each command of ./plan, with the lines that it says on the page."""
    found = []
    for block in blocks():
        for line in block if not block[0].startswith("# ") else ():
            if line.startswith("./plan "):
                found.append((line.partition("#")[0].strip(), []))
            else:
                found[-1][1].append(line)
    return found


def commands_as_written(tree):
    """One after the other in one folder, as a reader starts them."""
    for name, text in files().items():
        tree.write(name, text)
    for command, said in commands():
        ended = start(["sh", "-c", command], cwd=tree.root)
        status = REFUSED if "refused with" in "".join(said) else DONE
        if ended.status != status or ended.errors.splitlines() != said:
            return "%s: status %d: %s" % (command, ended.status, ended.errors)
    return (len(files()), len(commands()) > 12) != (3, True) and (
        "%d texts, %d commands" % (len(files()), len(commands())))


def options_are_in_the_help():
    wrong = [help_lacks(shlex.split(command)) for command, _ in commands()]
    return "; ".join(filter(None, wrong)) or None


def crates_of_plan():
    wanted = "%d crates" % len(crates_below("domeplan"))
    return wanted not in page(PAGE) and "it has to say: " + wanted


def theorems_are_proved():
    known = set(inline_code(page("docs/PROVED.md")))
    named = page(PAGE).partition("## What can be relied on")[2]
    wrong = [name for name in inline_code(named) if name not in known]
    return wrong and "not on docs/PROVED.md: " + ", ".join(wrong)


def man_page_is_there():
    named = [code.split()[-1] for code in inline_code(page(PAGE))
             if code.startswith("man ")]
    return not named and "none is named" or next(
        (name for name in named if not (ROOT / name).is_file()), None)


def tests(programs):
    yield "docs: DESK, answers", lambda: answers(programs["domeplan"])
    yield ("docs: DESK, commands as written",
           lambda: in_a_tree(PlanTree, commands_as_written,
                             programs["domeplan"]))
    for test in (options_are_in_the_help, crates_of_plan,
                 theorems_are_proved, man_page_is_there):
        yield "docs: DESK, " + test.__name__.replace("_", " "), test

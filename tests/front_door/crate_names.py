"""No module has the name of a crate beside it in a program, so that `rt try`,
which takes every crate of a program as source, works for each program."""

from front_door.command import ROOT

OF_THE_KIT = {"std", "check", "libc", "io", "os"}
ROOTS = {"lib", "main"}         # files that are no module of their own

# Crates by hand: what each depends on, and its modules.
APART = ({"shown": ["calls"], "calls": []},
         {"shown": ["main"], "calls": ["lib", "lines"]})
ALIKE = ({"shown": ["lines"], "lines": ["calls"], "calls": []},
         {"shown": ["main"], "lines": ["lib"], "calls": ["lib", "lines"]})


def depends():
    """Each crate, with the crates and libraries that it names; before the
    colon a word may say what sort of crate it is."""
    lines = (line.partition("#")[0] for line in
             (ROOT / "crates.txt").read_text().splitlines())
    named = (line.partition(":") for line in lines if ":" in line)
    return {name.split()[0]: after.split() for name, _, after in named}


def modules(crates):
    return {crate: sorted(path.stem for path in
                          (ROOT / "crates" / crate / "src").rglob("*.rt"))
            for crate in crates}


def reached(crates, name):
    """A crate, and all that it stands on."""
    found, rest = [], [name]
    while rest:
        crate = rest.pop()
        if crate not in found:
            found.append(crate)
            rest += crates.get(crate, [])
    return found


def alike(crates, files):
    """The modules that share a crate's name in some program."""
    for program in sorted(crates):
        if "main" not in files[program]:
            continue
        beside = reached(crates, program)
        for crate in beside:
            for module in set(files.get(crate, ())) - ROOTS:
                if module in OF_THE_KIT.union(beside):
                    yield "%s: module %s of %s" % (program, module, crate)


def apart():
    crates = depends()
    return "; ".join(alike(crates, modules(crates))) or None


def tells():
    """Crates by hand, without and with a shared name."""
    told = [list(alike(*crates)) for crates in (APART, ALIKE)]
    return (told != [[], ["shown: module lines of calls"]]
            and "told: %s" % told)


def tests(_):
    yield "crates: no module has a crate's name in a program", apart
    yield "crates: a module with a crate's name is told", tells

"""Copies of some crates of the repository, in which `rt ci` proves them and nothing else, beside any other work here.

What `rt ci` passes is kept on the machine by what it read, wherever that stood. So what a copy's run proved serves the merge gate, and the
other way round."""
import os
import shutil

TOP = os.path.realpath(f"{os.path.dirname(os.path.realpath(__file__))}/..")
# The two tiers of a crate's edits: those that the merge gate tries, and the others. `rt` reads the first of these folders alone.
GATE, MUTANTS = "must-fail", "mutants"
# The folders of a crate whose files its proof reads.
PROVED_FROM = ("src", "specs", "proofs")


def lines_of_crates():
    """Returns, by name, each crate's line of `crates.txt`, and what it stands on of the repository."""
    lines, below = {}, {}
    with open(f"{TOP}/crates.txt", encoding="utf-8") as file:
        for line in file:
            name, colon, libraries = line.partition("#")[0].partition(":")
            if colon:
                lines[name.strip()], below[name.strip()] = line, libraries.split()
    return lines, {name: [it for it in libraries if it in lines] for name, libraries in below.items()}


def crates_below(names):
    """Returns, by name and lowest first, what each of these crates and of those below them stands on of the repository."""
    below, found = lines_of_crates()[1], {}

    def visit(name):
        if name not in found:
            for it in below[name]:
                visit(it)
            found[name] = below[name]

    for name in names:
        visit(name)
    return found


def copy_crates(names, to, edits=None):
    """Makes the folder `to` a repository of these crates, which are all that they stand on. They have no edits but those of the
    folders that `edits` lists by crate."""
    # With a folder of this name it is the top of a repository, also inside another one.
    os.makedirs(f"{to}/.git")
    shutil.copy2(f"{TOP}/HANDLES", to)
    lines = lines_of_crates()[0]
    with open(f"{to}/crates.txt", "w", encoding="utf-8") as file:
        file.writelines(lines[it] for it in names)
    for name in names:
        here, there = f"{TOP}/crates/{name}", f"{to}/crates/{name}"
        shutil.copytree(here, there, ignore=lambda at, _: ("out", GATE, MUTANTS) if at == here else (), ignore_dangling_symlinks=True)
        for folder in (edits or {}).get(name, ()):
            os.makedirs(f"{there}/{GATE}", exist_ok=True)
            for edit in os.listdir(f"{here}/{folder}"):
                if os.path.exists(f"{there}/{GATE}/{edit}"):
                    raise FileExistsError(f"{edit} stands in both folders of edits of {name}")
                shutil.copy2(f"{here}/{folder}/{edit}", f"{there}/{GATE}/{edit}")

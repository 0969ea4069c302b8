#!/usr/bin/env python3
"""Counts how many lines of bench's code have a contract that says what they do, and how many are only proved to be safe and to end.

    specified.py [--crates]

A line counts if it belongs to a function of a crate below the program `bench`; tests and comments do not. A function is specified if it
has an `ensures`, or if it implements a method of a trait of the repository that has one. Of every other function only safety is proved:
no index is out of range, no sum wraps, and it returns unless it waits. With --crates each crate has a row."""
import glob
import re
import sys

sys.dont_write_bytecode = True

from crate_copies import TOP, crates_below

PROGRAM = "bench"
FUNCTION = re.compile(r"( *)(?:pub(?:\([a-z]+\))? )?(?:const )?(?:unsafe )?fn (\w+)")
TRAIT = re.compile(r"(?:pub(?:\([a-z]+\))? )?trait (\w+)")
IMPL = re.compile(r"( *)impl\b.*?\b(\w+)(?:<[^{]*>)? for ")
TEST = re.compile(r" *#\[(?:cfg\(test\)|test)\]")


def end_of(lines, begin, indent):
    """Returns where the function that begins at a line ends: at its closing brace, or at the semicolon of a declaration in a trait."""
    has_body = False
    for at in range(begin, len(lines)):
        line = lines[at]
        if line == f"{indent}}}" or line.endswith("{}") or (line.endswith(";") and not has_body):
            return at
        has_body = has_body or line.endswith("{")
    return len(lines) - 1


def functions(lines):
    """Gives of each function its name, the trait whose method it is or implements, if any, and its lines."""
    trait, end = None, -1
    for at, line in enumerate(lines):
        if at <= end:
            continue
        if TEST.match(line):
            # Tests stand last in a file.
            return
        opened, found = TRAIT.match(line) or IMPL.match(line), FUNCTION.match(line)
        if opened:
            trait = opened[opened.lastindex]
        elif line == "}":
            trait = None
        if found:
            end = end_of(lines, at, found[1])
            yield found[2], trait, lines[at : end + 1]


def read(crate):
    """Gives the functions of a crate."""
    for path in sorted(glob.glob(f"{TOP}/crates/{crate}/src/**/*.rt", recursive=True)):
        with open(path, encoding="utf-8") as file:
            yield from functions(file.read().split("\n"))


def is_said(lines):
    return any(line.lstrip().startswith("ensures") for line in lines)


def counts():
    """Returns, by crate, how many lines of code its functions have, and how many of these are specified."""
    code = {it: [*read(it)] for it in crates_below([PROGRAM])}
    promised = {(trait, name) for all_of in code.values() for name, trait, lines in all_of if trait and is_said(lines)}
    found = {}
    for crate, all_of in sorted(code.items()):
        sizes = [(sum(bool(it.strip()) and not it.lstrip().startswith("//") for it in lines), name, trait, lines) for name, trait, lines in all_of]
        said = sum(size for size, name, trait, lines in sizes if is_said(lines) or (trait, name) in promised)
        found[crate] = sum(size for size, *_ in sizes), said
    return found


def main():
    found = counts()
    if "--crates" in sys.argv[1:]:
        for crate, (total, said) in found.items():
            print(f"{crate:20} {total:6,} {said:6,}")
    total, said = (sum(it[place] for it in found.values()) for place in (0, 1))
    print(f"{total:,} lines of code in functions: {said:,} specified, {total - said:,} only proved safe and ending")


if __name__ == "__main__":
    main()

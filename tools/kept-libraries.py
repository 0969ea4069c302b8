#!/usr/bin/env python3
"""Gives each crate here the library that `rt ci` kept on this machine of the same text, so that `rt check` builds none.

    kept-libraries.py

`rt check` proves a crate over libraries that `rt lib` builds, with all their proofs, one after the other: for an upper crate that takes
the better part of an hour. Those that `rt ci` keeps are statements, and a check over them takes a minute or two. Run it at the top of
the repository, and again where `rt ci NAME` has passed a crate that was changed below the one that is checked. Nothing is trusted of
these libraries but for such checks: the merge gate sets aside what stands in `out/`.

It calls parts of `rt` that are no commands, and so may not fit another kit than those of KIT."""
import importlib.machinery
import importlib.util
import os
import shutil
import sys

sys.dont_write_bytecode = True

from crate_copies import TOP


def rt_module():
    """Returns the program `rt` as a module."""
    loader = importlib.machinery.SourceFileLoader("rt_command", os.path.realpath(shutil.which("rt") or sys.exit("rt is not on the path")))
    module = importlib.util.module_from_spec(importlib.util.spec_from_loader("rt_command", loader))
    loader.exec_module(module)
    return module


def give(kept, crate):
    """Gives a crate its kept library, unless it has it, and returns whether there is one."""
    stamp, now = f"{crate.folder}/out/rlib/stamp", crate.stamp()
    if not crate.is_built():
        shutil.rmtree(os.path.dirname(stamp), ignore_errors=True)
        os.makedirs(os.path.dirname(stamp))
        if not kept.give(crate, False, kept.key(crate)):
            return False
        with open(stamp, "w", encoding="utf-8") as file:
            file.write(now)
    kept.is_built(crate)
    return True


def main():
    rt = rt_module()
    if not hasattr(rt, "Kept"):
        sys.exit("kept-libraries: the rt of this kit keeps no libraries")
    os.chdir(TOP)
    rt.rtlib.Crate, rt.Crate.allowed = rt.Crate, rt.handles_of(TOP)
    crates = [it for it in rt.rtlib.crates_below(TOP) if not it.is_program]
    kept, given = rt.Kept(crates), set()
    for crate in sorted(crates, key=lambda it: len(it.below())):
        if {it.name for it in crate.below()} <= given and give(kept, crate):
            given.add(crate.name)
    lacking = sorted({it.name for it in crates} - given)
    print(f"{len(given)} of {len(crates)} libraries are given; rt ci has not kept those of {', '.join(lacking)}" if lacking else "all are given")


if __name__ == "__main__":
    main()

#!/usr/bin/env python3
"""Pastes the commands of README.md into a fresh clone, in order, and compares what they print with what the page shows.

    try-readme.py [--page FILE] [--gate]

Each line of a block ```sh is a command, and so is a line `$ ..` of a block ```text; what the second prints, and says on standard error,
has to be the lines after it. The clone gets the programs that are built here, so that nothing is proved; a command that begins a build
fails after LONGEST seconds. `.ci/run`, the merge gate, is left out unless --gate is given.

It prints a line for each command that failed, and ends with status 1 if one did."""
import argparse
import os
import re
import shutil
import subprocess
import sys
import tempfile
import time

sys.dont_write_bytecode = True

from crate_copies import TOP
from programs import SMALL, WHOLE

# How long a command may take, in seconds.
LONGEST = 120
GATE = ".ci/run"
# Exit statuses that a command of the page may have: bench's own, for what it found.
FOUND = (0, 7)


def commands(page):
    """Gives each command of a page, with the lines that it is to print, or None where the page does not show them."""
    kind, shown = None, None
    for line in page:
        line = line.rstrip("\n")
        if line.startswith("```"):
            if shown:
                yield shown
            kind, shown = (None if kind else line[3:]), None
        elif kind == "sh" and line.strip() and not line.startswith("#"):
            yield line, None
        elif kind == "text" and line.startswith("$ "):
            if shown:
                yield shown
            shown = (line[2:], [])
        elif shown:
            shown[1].append(line)


def fresh_clone(folder):
    """Makes a clone of this repository in a folder, with the programs that are built here."""
    subprocess.run(["git", "clone", "--quiet", TOP, folder], check=True)
    for program in (SMALL, WHOLE):
        if program.is_fresh(True):
            there = program.file(True).replace(TOP, folder)
            os.makedirs(os.path.dirname(there))
            shutil.copy2(program.file(True), there)
            shutil.copy(f"{program.file(True)}.built", f"{there}.built")
            # (what the clone wrote is not newer)
            os.utime(f"{there}.built", (time.time() + 1,) * 2)


def fault_of(command, shown, folder):
    """Runs a command in a clone, and says what is wrong with it; nothing if it went well."""
    try:
        run = subprocess.run(
            ["sh", "-c", command], cwd=folder, stdin=subprocess.DEVNULL, stdout=subprocess.PIPE, stderr=subprocess.STDOUT, text=True,
            errors="replace", timeout=None if command == GATE else LONGEST,
        )
    except subprocess.TimeoutExpired:
        return f"took more than {LONGEST} seconds"
    printed = run.stdout.split("\n")[:-1]
    if run.returncode not in FOUND:
        return f"ended with status {run.returncode}: {run.stdout[-400:]}"
    # Standard error is said last, and the page need not show it.
    if shown is not None and printed[: len(shown)] != shown:
        return "printed other lines:\n" + run.stdout
    return None


def main():
    words = argparse.ArgumentParser()
    words.add_argument("--page", default="README.md")
    words.add_argument("--gate", action="store_true")
    given = words.parse_args()
    failed = tried = 0
    with tempfile.TemporaryDirectory(prefix="try-readme-") as room:
        fresh_clone(f"{room}/bench")
        with open(f"{room}/bench/{given.page}", encoding="utf-8") as page:
            for command, shown in commands(page):
                if command == GATE and not given.gate:
                    continue
                tried += 1
                fault = fault_of(command, shown, f"{room}/bench")
                if fault:
                    failed += 1
                    print(f"$ {command}: {fault}", flush=True)
    print(f"{tried} commands, {failed} failed")
    return 1 if failed or not tried else 0


if __name__ == "__main__":
    sys.exit(main())

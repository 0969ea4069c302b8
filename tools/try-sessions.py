#!/usr/bin/env python3
"""Runs cases of `.sessions` by a program's file, as a person would at a command line, and says which came out otherwise.

    try-sessions.py [--within ROOT] PROGRAM [FILE..]

The merge gate has `test_runner` run these cases inside itself. Here each line with `$` is a run of PROGRAM of its own. All files, or
all those of the gate, are played one after another in one copy of the cases' folder, as `test_runner` does: so what a case leaves there
disturbs later ones here too. With --within PROGRAM, and the folder, stand in another root, as a package was installed there (which
chroot wants to be root for). The notation stands in crates/case_format/src/sessions.rt."""
import argparse
import os
import re
import shutil
import subprocess
import sys
import tempfile

sys.dont_write_bytecode = True

from crate_copies import TOP

DATA = f"{TOP}/crates/test_runner/data"
# What a run may take, in seconds.
LONGEST = 120
ESCAPED = re.compile(rb"\\(t|r|s|x03|xff)")
ESCAPES = {b"t": b"\t", b"r": b"\r", b"s": b" ", b"x03": b"\3", b"xff": b"\xff"}


def unescaped(text):
    return ESCAPED.sub(lambda found: ESCAPES[found[1]], text.encode())


def packet(text):
    return f"${text}#{sum(text.encode()) % 256:02x}".encode()


def bytes_of(parts):
    """The bytes of parts in hexadecimal: `41+00*3`, or none for `-`."""
    found = b""
    for part in [] if parts == "-" else parts.split("+"):
        digits, _, times = part.partition("*")
        found += bytes.fromhex(digits) * int(times or 1)
    return found


class Run:
    """A run of the program, and what is wanted of it. None stands for anything at all."""

    def __init__(self, words):
        self.words, self.input, self.out, self.status, self.err, self.kept = words, b"", b"", 0, b"", None
        # How many lines it prints first that only begin alike, and how.
        self.alike, self.begin = 0, b""

    def read(self, mark, text):
        """Reads a line that says more of the run; false where it does not."""
        if mark in ("<", "<<", "<$"):
            times, _, many = text.partition(" ")
            self.input += unescaped(text) + b"\n" if mark == "<" else packet(text) if mark == "<$" else unescaped(many) * int(times)
        elif mark in (">*", ">="):
            self.out, self.kept = None, text
        elif mark == ">#":
            count, _, begin = text.partition(" ")
            self.alike, self.begin = int(count), begin.encode()
        elif mark in (">", ">>", ">$"):
            self.out += packet(text) if mark == ">$" else text.encode() + (b"\n" if mark == ">" else b"")
        elif mark == "!":
            status, blank, said = text.partition(" ")
            self.status, self.err = int(status), said.encode() + b"\n" if blank else None
        elif mark == "!!":
            self.err += text.encode() + b"\n"
        else:
            return False
        return True

    def after_alike(self, printed):
        """Returns what was printed after the lines that begin alike; nothing if there are fewer."""
        lines = printed.split(b"\n", self.alike)
        return lines[-1] if len(lines) == self.alike + 1 and all(it.startswith(self.begin) for it in lines[:-1]) else None


class Place:
    """Where the runs take place: a copy of the folder of the cases, in this root or in another one."""

    def __init__(self, program, root):
        self.program, self.root = program, root
        self.folder = tempfile.mkdtemp(prefix="try-sessions-", dir=f"{root}/tmp" if root else None)
        shutil.copytree(DATA, self.folder, dirs_exist_ok=True, symlinks=True)
        os.chmod(self.folder, 0o755)

    def path(self, name):
        return os.path.join(self.folder, name)

    def does(self, run):
        """Runs the program, and says how it came out otherwise than wanted; nothing where it did not."""
        words = run.words.split()
        if self.root:
            there = self.folder.removeprefix(self.root)
            words = ["chroot", self.root, "sh", "-c", f'cd {there} && exec "$@"', "sh", self.program, *words]
        else:
            words = [self.program, *words]
        came = subprocess.run(words, input=run.input, capture_output=True, cwd=self.folder, timeout=LONGEST, check=False)
        if run.kept:
            with open(self.path(run.kept), "wb") as it:
                it.write(came.stdout)
        pairs = (("prints", run.after_alike(came.stdout), run.out), ("says", came.stderr, run.err))
        wrong = [f"{what} {it!r}" for what, it, wanted in pairs if (it != wanted if wanted is not None else not it)]
        return wrong + ([f"ends with {came.returncode}"] if came.returncode != run.status else [])


def steps_of(lines):
    """Gives each step of a file: a run, or a mark with its name and its bytes."""
    step = None
    for line in lines:
        mark, _, text = line.partition(" ")
        if not line or line.startswith(("#", "==")):
            continue
        if isinstance(step, Run) and step.read(mark, text):
            continue
        if mark == "|" and isinstance(step, list):
            step[2] += text.encode() + b"\n"
            continue
        if step:
            yield step
        name, _, parts = text.partition(" ")
        step = Run(text) if mark == "$" else [mark, name, bytes_of(parts) if mark in ("bytes", "holds") else b""]
    if step:
        yield step


def fault_of_file(place, mark, name, held):
    """Does what a line says of a file, and says what is wrong with it."""
    path = place.path(name)
    if mark in ("file", "bytes"):
        with open(path, "wb") as it:
            it.write(held)
    elif mark == "remove":
        (os.rmdir if os.path.isdir(path) else os.remove)(path)
    elif mark == "missing":
        return [f"{name} is there"] if os.path.exists(path) else []
    elif mark == "holds":
        with open(path, "rb") as it:
            return [] if it.read() == held else [f"{name} holds other bytes"]
    else:
        sys.exit(f"try-sessions: no such mark: {mark}")
    return []


def files_of_the_gate():
    """Returns the files of sessions in the order in which the gate plays them."""
    with open(f"{TOP}/crates/test_runner/args", encoding="utf-8") as args:
        return [f"{DATA}/{it}" for it in args.read().split() if it.endswith(".sessions")]


def main():
    words = argparse.ArgumentParser(usage="try-sessions.py [--within ROOT] PROGRAM [FILE..]")
    words.add_argument("--within", default="")
    words.add_argument("program")
    words.add_argument("files", nargs="*")
    given = words.parse_args()
    runs = failed = 0
    place = Place(given.program, os.path.realpath(given.within) if given.within else "")
    for path in given.files or files_of_the_gate():
        with open(path, encoding="utf-8") as it:
            lines = it.read().split("\n")
        for step in steps_of(lines):
            runs += isinstance(step, Run)
            wrong = place.does(step) if isinstance(step, Run) else fault_of_file(place, *step)
            for what in wrong:
                print(f"{os.path.basename(path)}: {step.words if isinstance(step, Run) else step[0]}: {what[:400]}", flush=True)
            failed += bool(wrong)
    shutil.rmtree(place.folder)
    print(f"{runs} runs, {failed} faults")
    return 1 if failed else 0


if __name__ == "__main__":
    sys.exit(main())

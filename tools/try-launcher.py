#!/usr/bin/env python3
"""Compares what `./bench` says without a program with what a program says, and the small program with the whole one.

    try-launcher.py                           by the cases of refusals and of help, which the merge gate compares with the program
    try-launcher.py --bench PROGRAM [--count N] [--seed S]      also by random words, which it gives to this program
    try-launcher.py --bench PROGRAM --small SMALL               also has each case whose command the small program has run by that program

The last lines say how many runs were compared. At a difference the status is 1."""
import argparse
import glob
import importlib
import random
import shutil
import subprocess
import sys
import tempfile

sys.dont_write_bytecode = True

from command_words import answer, command_in, first_commands, helps
from crate_copies import TOP

sessions = importlib.import_module("try-sessions")
FILES = sorted(glob.glob(f"{TOP}/crates/test_runner/data/*.sessions"))
LACKING = "the small program has no {}: ./bench --build proves the whole one"
# Words that name no command and no option.
PLAIN = ("a", "b", "1", "zz", "/nowhere", "help")
MARKS = ("-h", "-V", "-x", "-", "--", "-1", "--help", "--explain")


def steps():
    """Gives each file of cases with its steps."""
    for path in FILES:
        with open(path, encoding="utf-8") as it:
            yield path, list(sessions.steps_of(it.read().split("\n")))


def runs_of(steps_of_file):
    return [it for it in steps_of_file if isinstance(it, sessions.Run)]


def of_cases():
    """Returns how many answers there are to cases, and those that are not what the cases want."""
    wrong, count = [], 0
    for run in (run for _, found in steps() for run in runs_of(found)):
        said = answer(run.words.split())
        if said:
            count += 1
            wanted, text = (run.err if run.status else run.out), said.text.encode()
            if said.status != run.status or wanted is not None and wanted != text:
                wrong.append(f"{run.words}: {said.text!r}, status {said.status}")
    return count, wrong


def random_word(chance, commands, options):
    """Returns a word: a command or an option, as it is or with a slip, or another one."""
    kind = chance.random()
    if kind < 0.2:
        return chance.choice(PLAIN)
    if kind < 0.35:
        return chance.choice(MARKS)
    word = chance.choice(options if kind < 0.7 else commands)
    if chance.random() < 0.3:
        at = chance.randrange(len(word))
        word = word[:at] + chance.choice(("", "x", word[at] * 2)) + word[at + 1 :]
    return word + chance.choice(("=", "=3")) if word.startswith("--") and chance.random() < 0.1 else word


def of_words(program, count, seed):
    """Returns how many answers to random words there are, and those that are not what the program says."""
    chance, (whole, of_commands), wrong, compared = random.Random(seed), helps(), [], 0
    options = sorted({name for it in (whole, *of_commands.values()) for name in it.options})
    folder = tempfile.mkdtemp(prefix="try-launcher-")
    for _ in range(count):
        words = [random_word(chance, list(of_commands), options) for _ in range(chance.randrange(1, 6))]
        said = answer(words)
        if said:
            how = {"stdin": subprocess.DEVNULL, "capture_output": True, "text": True, "cwd": folder, "timeout": 60, "check": False}
            came = subprocess.run([program, *words], **how)
            compared += 1
            if (came.returncode, came.stderr or came.stdout) != (said.status, said.text):
                wrong.append(f"{words}: {said.text!r} in place of {came.stderr or came.stdout!r}")
    shutil.rmtree(folder)
    return compared, wrong


def of_small(program, small):
    """Returns how many runs of cases the small program does in place of the whole one, and what came out otherwise."""
    count, wrong = 0, []
    for path, found in steps():
        place = sessions.Place(program, "")
        for step in found:
            is_run = isinstance(step, sessions.Run)
            is_small = is_run and command_in(step.words.split()) in ("", *first_commands())
            place.program, count = small if is_small else program, count + is_small
            faults = place.does(step) if is_run else sessions.fault_of_file(place, *step)
            wrong += [f"{path}: {step.words if is_run else step[0]}: {it[:400]}" for it in faults]
        shutil.rmtree(place.folder)
    return count, wrong


def of_lacking(small):
    """Returns how many commands the small program refuses by the line that says so, and what else it does."""
    commands = {name: it.example.partition("|")[2] or it.example for name, it in helps()[1].items() if name not in first_commands()}
    wrong = []
    for name, example in commands.items():
        words = example[example.index("bench ") :].partition(" >")[0].split()[1:]
        came = subprocess.run([small, *words], stdin=subprocess.DEVNULL, capture_output=True, text=True, check=False)
        if (came.returncode, came.stderr) != (125 if name == "exec" else 1, f"bench: {LACKING.format(name)}\n"):
            wrong.append(f"{words}: {came.stderr!r}, status {came.returncode}")
    return len(commands), wrong


def main():
    words = argparse.ArgumentParser(usage=__doc__.split("\n\n")[1].strip())
    words.add_argument("--bench")
    words.add_argument("--small")
    words.add_argument("--count", type=int, default=2000)
    words.add_argument("--seed", type=int, default=1)
    given = words.parse_args()
    parts = {"answers to cases": of_cases()}
    if given.bench:
        parts["answers to random words"] = of_words(given.bench, given.count, given.seed)
    if given.bench and given.small:
        parts["runs of cases by the small program"] = of_small(given.bench, given.small)
        parts["commands that it lacks"] = of_lacking(given.small)
    for what, (count, wrong) in parts.items():
        print(*wrong[:20], f"{count} {what}, {len(wrong)} wrong", sep="\n", flush=True)
    return int(any(wrong for _, wrong in parts.values()))


if __name__ == "__main__":
    sys.exit(main())

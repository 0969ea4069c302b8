#!/usr/bin/env python3
"""Compares `bench exec` with `bench replay` of what it recorded, on random programs.

    random-records.py [RUNS] [SEED] [JOBS]

A run (1,000 where no number is given) has one or two random sources: pipes, forks, waits, files, and reads of a tape. It is run by `exec`
with a random seed, or without one, with a limit and `--record`. Then `replay` runs the record: what its lines `shown T` print has to be
what `exec --json` of the same run says of each terminal, no event may be refused, and a second `exec` has to write the same record.

BENCH names the program, or else it is ./bench of this repository. The last line says how many runs and events were compared; at the
first difference the sources are printed, and the status is 1."""
import concurrent.futures
import json
import os
import random
import subprocess
import sys
import tempfile

TOP = os.path.realpath(f"{os.path.dirname(os.path.realpath(__file__))}/..")
BENCH = os.environ.get("BENCH", f"{TOP}/bench")
# Calls by their numbers, and the most instructions of a run.
EXIT, WRITE, READ, OPEN, CLOSE, PIPE, FORK, WAIT, GETPID, SEEK, SYNC, UNLINK = range(1, 13)
LIMIT = 20000


class Differs(Exception):
    """A run that came out otherwise, with its sources."""


def call(number, *arguments):
    """Returns the lines of a call; an argument is a number, a label, or `kept`, the reply that was kept last."""
    lines = []
    for register, value in zip(("a0", "a1", "a2"), arguments):
        if value == "kept":
            lines.append(f"mv {register},s0")
        else:
            lines.append(f"{'la' if isinstance(value, str) else 'li'} {register},{value}")
    return [*lines, f"li a7,{number}", "ecall"]


def random_step(rng, place):
    """Returns the lines of a random step."""
    fd = rng.choice((0, 1, 2, 3, 4, "kept"))
    kind = rng.randrange(10)
    if kind < 3:
        return call(WRITE, rng.choice((1, 1, fd)), "text", rng.choice((0, 1, 5, 300)))
    if kind == 3:
        return call(READ, fd, "room", rng.choice((1, 4, 64)))
    if kind == 4:
        return [*call(OPEN, "name", rng.choice((1, 2)), rng.choice((0, 1, 2))), "mv s0,a0"]
    if kind == 5:
        return call(PIPE, "room")
    if kind == 6:
        return call(FORK)
    if kind == 7:
        return call(WAIT, rng.choice((0, "room")))
    if kind == 8:
        return call(rng.choice((GETPID, SYNC))) + call(CLOSE, fd)
    return [f"li t0,{rng.randrange(1, 400)}", f"spin{place}: addi t0,t0,-1", f"bnez t0,spin{place}", *call(UNLINK, "name", 1)]


def random_source(rng):
    lines = ["_start: nop"]
    for place in range(rng.randint(2, 12)):
        lines += random_step(rng, place)
    lines += call(EXIT, rng.randrange(3)) if rng.random() < 0.8 else []
    return "\n".join([*lines, ".data", 'text: .ascii "abcdefgh"', ".space 400", 'name: .ascii "fg"', ".space 2", "room: .space 64", ""])


def bench(folder, *words):
    return subprocess.run([BENCH, *words], cwd=folder, capture_output=True, timeout=120)


def recorded(folder, words, name):
    """Returns the status of a run, its object, and its record."""
    ran = bench(folder, *words, "--json", "--record", name, *sorted(it for it in os.listdir(folder) if it.endswith(".s")))
    if ran.returncode == 125:
        raise Differs(ran.stderr.decode())
    with open(f"{folder}/{name}", encoding="ascii") as file:
        return ran.returncode, json.loads(ran.stdout), file.read()


def compare(folder, words):
    """Compares a run with the replay of its record, and returns how many events it has."""
    status, told, script = recorded(folder, words, "one.script")
    if recorded(folder, words, "two.script") != (status, told, script):
        raise Differs("a second run came out otherwise")
    replayed = bench(folder, "replay", "one.script")
    lines = replayed.stdout.decode().splitlines()
    shown = [it.split()[1:] for it in lines if it.startswith("shown ")]
    if replayed.returncode != 0 or any(it.startswith("refused") for it in lines):
        raise Differs("an event of the record is refused")
    if shown != [[str(it["terminal"]), it["hex"]] for it in told["terminals"]]:
        raise Differs(f"replay shows {shown}")
    return len(lines) - len(shown)


def run(seed):
    """Runs what a seed gives, and returns how many events it has."""
    rng = random.Random(seed)
    with tempfile.TemporaryDirectory() as folder:
        sources = [random_source(rng) for _ in range(rng.choice((1, 1, 2)))]
        for place, source in enumerate(sources):
            with open(f"{folder}/{place}.s", "w", encoding="ascii") as file:
                file.write(source)
        with open(f"{folder}/tape", "wb") as file:
            file.write(rng.randbytes(rng.choice((0, 3, 100))))
        words = ["exec", "--tape", "tape", "--limit", str(LIMIT)]
        words += ["--seed", str(rng.randrange(1 << 40))] if rng.random() < 0.7 else []
        try:
            return compare(folder, words)
        except Differs as why:
            raise Differs(f"seed {seed}: {why}\n{' '.join(words)}\n" + "\n".join(sources)) from why


def main():
    runs, first, jobs = (int(given) for given in (sys.argv[1:] + ["1000", "1", "4"][len(sys.argv) - 1:]))
    with concurrent.futures.ThreadPoolExecutor(jobs) as pool:
        try:
            events = sum(pool.map(run, range(first, first + runs)))
        except Differs as why:
            print(why)
            sys.exit(1)
    print(f"{runs} runs, {events} events: each record is replayed the same")


if __name__ == "__main__":
    main()

#!/usr/bin/env python3
"""Compares `bench crashes --all-orders --model` with each order of calls by itself, on random pairs of programs.

    random-crash-orders.py [RUNS] [SEED] [JOBS]

Two programs (100 pairs where no number is given) make 2 to 4 calls each, on two files, which may be there before, and a terminal: they make,
write, rename and remove files, print, and sync. Each interleaving of their calls, up to a print on terminal 0, a sync or the end, is a
script, for which `bench crashes --model` prints what crashes leave. For each rule of commits, ordered, delayed and posix, the lists of files
of the last window of each script, each with what it printed on terminal 0, are those on which `bench crashes --all-orders --model` runs a
recovery.

A list tells the window in which it is left by a file `k`: a third program counts there, by itself between two syncs, after each sync of a
script. The recovery fails at once. So what is tried comes one by one, by `--part`.

BENCH names the program, or else it is ./bench of this repository. The last line says how many pairs, orders and lists were compared. At the
first difference the script is printed, with what came of it, and the status is 1."""
import concurrent.futures
import hashlib
import itertools
import os
import random
import subprocess
import sys
import tempfile

sys.dont_write_bytecode = True
sys.path.insert(0, os.path.dirname(os.path.realpath(__file__)))
from cone_model.machine import A0, A1, A2, A7, ECALL, S0, TEXT, jump, li, move

TOP = os.path.realpath(f"{os.path.dirname(os.path.realpath(__file__))}/..")
BENCH = os.environ.get("BENCH", f"{TOP}/bench")
EXIT, WRITE, OPEN, SEEK, SYNC, UNLINK, RENAME = 1, 2, 4, 10, 11, 12, 13
MODELS, NAMES, LIMIT, PARTS = ("ordered", "delayed", "posix"), (b"f", b"g"), 1000, 9999
DATA = b"fgkxyz0123456789"
# The terminal of the program that counts windows, and its number.
COUNTER, COUNTER_PID = 7, 3
FAILS = "_start: li a0, 1\n li a7, 1\n ecall\n"


def address_of(part):
    return TEXT + 4 + DATA.index(part)


def call(number, *arguments):
    """Returns the words of a call. An argument is a number, or a register in a list."""
    words = []
    for register, value in zip((A0, A1, A2), arguments):
        words += move(register, value[0]) if isinstance(value, list) else li(register, value)
    return [*words, *li(A7, number), *ECALL]


def with_data(words):
    pool = [int.from_bytes(DATA[k:k + 4], "little") for k in range(0, len(DATA), 4)]
    return jump(4 * len(pool) + 4) + pool + words


def random_call(rng):
    """Returns the words of a random call, and what it is to a window: a sync, what it prints, or nothing."""
    kind, name = rng.randrange(8), rng.choice(NAMES)
    if kind == 0:
        byte = rng.choice((b"x", b"y", b"z"))
        return call(WRITE, 1, address_of(byte), 1), byte
    if kind in (1, 2):
        return call(SYNC), "sync"
    if kind in (3, 4):
        return call(OPEN, address_of(name), 1, 2) + move(S0, A0), None
    if kind == 5:
        return call(UNLINK, address_of(name), 1) if rng.random() < 0.5 else call(RENAME, address_of(b"fg"), 1, 1), None
    return call(WRITE, [S0], address_of(b"xy"), rng.choice((1, 2))), None


def random_program(rng):
    """Returns the words of a program, and its calls."""
    calls = [random_call(rng) for _ in range(rng.randint(2, 4))] + [(call(EXIT, 0), None)]
    return with_data([word for words, _ in calls for word in words]), [what for _, what in calls]


def counter_words(windows):
    """Returns the words of the program that counts windows in the file k."""
    words = call(OPEN, address_of(b"k"), 1, 1) + move(S0, A0)
    for window in range(1, windows + 1):
        words += call(SEEK, [S0], 0) + call(WRITE, [S0], address_of(b"%d" % window), 1) + call(SYNC)
    return with_data(words + call(EXIT, 0))


def orders_of(counts):
    """Returns each order of so many calls of two processes, as process numbers."""
    for places in itertools.combinations(range(sum(counts)), counts[0]):
        yield [1 if k in places else 2 for k in range(sum(counts))]


class Pair:
    """Two programs, and what crashes leave of them."""

    def __init__(self, rng, folder):
        self.folder = folder
        programs = [random_program(rng) for _ in range(2)]
        self.terminals = (0, rng.randrange(2))
        self.calls = [calls for _, calls in programs]
        self.programs = [self.line(terminal, words) for terminal, (words, _) in zip(self.terminals, programs)]
        self.files = [f"file {name.decode()} {rng.randbytes(rng.randint(1, 3)).hex()}" for name in NAMES if rng.random() < 0.5]
        windows = sum(calls.count("sync") for calls in self.calls)
        self.counter = [self.line(COUNTER, counter_words(windows)), f"file k {ord('0'):02x}"]
        self.marks = {hashlib.sha256(b"%d" % window).hexdigest()[:16]: window for window in range(windows + 1)}
        with open(f"{folder}/fails.s", "w") as file:
            file.write(FAILS)

    @staticmethod
    def line(terminal, words):
        return f"program {terminal} " + " ".join(f"{word:08x}" for word in words)

    def bench(self, lines, *words):
        """Runs `bench crashes` on a script of these lines."""
        path = f"{self.folder}/script"
        with open(path, "w") as file:
            file.write("\n".join(lines) + "\n")
        return subprocess.run([BENCH, "crashes", "--apart", "99", *words, path], capture_output=True, text=True)

    def beginnings_of(self, order):
        """Returns the beginnings of an order that end before a print on terminal 0, before a sync, or with it."""
        left = [list(calls) for calls in self.calls]
        for count, pid in enumerate(order):
            what = left[pid - 1].pop(0)
            if what == "sync" or what is not None and self.terminals[pid - 1] == 0:
                yield tuple(order[:count])
        yield tuple(order)

    def run_of(self, calls):
        """Returns the lines of calls in their order after the set-up, how many syncs are among them, and what they print."""
        lines = [f"turn {pid} {LIMIT}" for pid in (1, 2, COUNTER_PID)]
        step = lambda pid: [f"enter {pid}", f"turn {pid} {LIMIT}"]
        lines += step(COUNTER_PID)
        left, syncs, printed = [list(calls) for calls in self.calls], 0, b""
        for pid in calls:
            what = left[pid - 1].pop(0)
            lines += step(pid)
            if what == "sync":
                syncs += 1
                lines += step(COUNTER_PID) * 3
            elif what is not None and self.terminals[pid - 1] == 0:
                printed += what
        return lines, syncs, printed

    def left_by(self, model, calls):
        """Returns what crashes after these calls leave of the last window: files, each list with what was printed."""
        lines, syncs, printed = self.run_of(calls)
        ran = self.bench([*self.programs, *self.counter, *self.files, *lines], "--model", model)
        *listed, last = ran.stdout.splitlines()
        if ran.returncode or not last.endswith(" lists, all"):
            raise AssertionError(f"status {ran.returncode}: {ran.stdout}{ran.stderr}")
        found = set()
        for line in listed:
            files = line.split(" files ")[1].split(" ")
            mark = next(name for name in files if name.startswith("k:"))
            if self.marks[mark.split(":")[2]] == syncs:
                found.add((frozenset(files) - {mark}, printed))
        return found

    def tried(self, model):
        """Returns that on which the recovery is run, by all orders."""
        found = set()
        for part in range(1, PARTS + 1):
            ran = self.bench(
                [*self.programs, *self.files], "--model", model, "--all-orders", "--jobs", "1", "--nested", "0", "--recover",
                f"{self.folder}/fails.s", "--part", f"{part}/{PARTS}",
            )
            if ran.returncode == 0 and ", all; part " in ran.stdout:
                return found
            lines = ran.stdout.splitlines()
            if ran.returncode != 7 or not lines[0].startswith("order "):
                raise AssertionError(f"status {ran.returncode}: {ran.stdout}{ran.stderr}")
            files = frozenset(lines[0].split(" files ")[1].split(" ")) - {"-"}
            shown = next(line for line in lines if line.startswith("shown '"))
            found.add((files, shown.split("'")[1].encode()))
        raise AssertionError("too many lists")

    def difference(self, model, orders):
        """Returns how many lists are tried, and the difference for a rule, if there is one."""
        runs = {calls for order in orders for calls in self.beginnings_of(order)}
        wanted = set().union(*(self.left_by(model, calls) for calls in runs))
        found = self.tried(model)
        apart = [f"not tried: {it}" for it in wanted - found] + [f"left by no order: {it}" for it in found - wanted]
        return len(found), "\n".join([f"--model {model}", *self.programs, *self.files, *apart]) if apart else None


def compare(seed):
    """Compares a random pair. Returns how many orders and lists there were, and a difference, if there is one."""
    with tempfile.TemporaryDirectory(dir="/dev/shm" if os.path.isdir("/dev/shm") else None) as folder:
        pair, lists = Pair(random.Random(seed), folder), 0
        orders = list(orders_of([len(calls) for calls in pair.calls]))
        for model in MODELS:
            count, difference = pair.difference(model, orders)
            lists += count
            if difference:
                return len(orders), lists, f"seed {seed}\n{difference}"
    return len(orders), lists, None


def main():
    runs, seed, jobs = (int(word) for word in (sys.argv[1:] + ["100", "1", str(os.cpu_count())][len(sys.argv) - 1:]))
    orders = lists = 0
    with concurrent.futures.ThreadPoolExecutor(jobs) as pool:
        for number, found, difference in pool.map(compare, range(seed, seed + runs)):
            if difference:
                print(difference)
                return 1
            orders, lists = orders + number, lists + found
    print(f"{runs} pairs, {orders} orders, {lists} lists: the same")
    return 0


if __name__ == "__main__":
    sys.exit(main())

#!/usr/bin/env python3
"""Compares `bench explore` with all orders of calls by `bench replay`, on random programs.

    random-orders.py [RUNS] [SEED] [JOBS]

A program (500 where no number is given) makes a pipe, forks one or two children, or none beside a second program, and each process then
makes a few calls: on two files, which may be there before, the pipe, the terminal and its children. Each interleaving of their calls is
a script that `bench replay` runs. A call that waits is passed over there, and tried again at the end, until no process goes on: so each
order in which the calls may come is among them. What the terminals show, with which statuses the processes ended or that they wait, and
the files with their bytes are the outcomes. `bench explore` has to print just these, each with the fewest calls that lead to it. `bench
replay` refuses no line of the scripts that it saves.

A status is that which `replay --cone` tells of the event by which a process ended; it is asked once for each trace of a process. The
bytes are what one more program writes after a crash that follows the order. It ends at once where its tape is empty, as it is for
`explore`.

BENCH names the program, or else it is ./bench of this repository. The last line says how many programs, orders and outcomes were
compared. At the first difference the script is printed, with what came of it, and the status is 1."""
import concurrent.futures
import glob
import hashlib
import itertools
import os
import random
import subprocess
import sys
import tempfile

sys.dont_write_bytecode = True
sys.path.insert(0, os.path.dirname(os.path.realpath(__file__)))
from cone_model.machine import A0, A1, A2, A7, EBREAK, ECALL, S0, S1, TEXT, branch, jump, li, load, move

TOP = os.path.realpath(f"{os.path.dirname(os.path.realpath(__file__))}/..")
BENCH = os.environ.get("BENCH", f"{TOP}/bench")
BUFFER, ENDS = 0x7FFFF000, 0x7FFFF100
T0 = 5
EXIT, WRITE, READ, OPEN, CLOSE, PIPE, FORK, WAIT, GETPID, UNLINK, RENAME = 1, 2, 3, 4, 5, 6, 7, 8, 9, 12, 13
NAMES, LIMIT, MOST_ORDERS = (b"f", b"g"), 1000, 3000
DATA = b"fgxyz"
# Terminals, and that of the program that writes what the files hold. How many calls it makes then, and where its tape is empty.
TERMINALS, READER, READER_CALLS, READER_ENDS = 8, 7, 8, 2


# Programs: words, made of calls. Data stand at the front, behind a jump.


def address_of(part):
    return TEXT + 4 + DATA.index(part)


def call(number, *arguments):
    """Returns the words of a call. An argument is a number, or a register in a list."""
    words = []
    for register, value in zip((A0, A1, A2), arguments):
        words += move(register, value[0]) if isinstance(value, list) else li(register, value)
    return [*words, *li(A7, number), *ECALL]


def random_call(rng, has_pipe, is_parent):
    """Returns the words of a random step, and how many calls it makes."""
    kind = rng.randrange(9 if has_pipe or is_parent else 6)
    name = rng.choice(NAMES)
    if kind == 0:
        return call(WRITE, 1, address_of(rng.choice((b"x", b"y", b"z"))), 1), 1
    if kind == 1:
        return call(OPEN, address_of(name), 1, 2) + move(S0, A0), 1
    if kind == 2:
        return call(WRITE, [S0], address_of(b"xy"), rng.choice((1, 2))), 1
    if kind == 3:
        return call(OPEN, address_of(name), 1, 0) + move(S0, A0), 1
    if kind == 4:
        return call(READ, [S0], BUFFER, 1) + call(WRITE, 1, BUFFER, 1), 2
    if kind == 5:
        return (call(UNLINK, address_of(name), 1) if rng.random() < 0.5 else call(RENAME, address_of(b"fg"), 1, 1)), 1
    if kind == 6 and is_parent:
        return call(WAIT, 0), 1
    if not has_pipe:
        return call(GETPID), 1
    if kind == 7:
        return li(T0, ENDS) + load(A0, 0, T0, 4) + move(S0, A0) + call(READ, [S0], BUFFER, 1) + call(WRITE, 1, BUFFER, 1), 2
    return li(T0, ENDS + 4) + load(A0, 0, T0, 4) + move(S0, A0) + call(WRITE, [S0], address_of(b"z"), 1), 1


def body_of(rng, most, has_pipe, is_parent):
    """Returns the words of a process's own steps, and how many calls they make, its exit among them."""
    words, count = [], 0
    while count < most:
        step, calls = random_call(rng, has_pipe, is_parent)
        words, count = words + step, count + calls
    return words + rng.choice((call(EXIT, rng.randrange(3)), call(EXIT, [A0]), EBREAK)), count + 1


def with_data(words):
    data = DATA + bytes(-len(DATA) % 4)
    pool = [int.from_bytes(data[k:k + 4], "little") for k in range(0, len(data), 4)]
    return jump(4 * len(pool) + 4) + pool + words


def program_of(rng, children, most):
    """Returns the words of a program, how many calls the first process makes, and how many each child."""
    has_pipe = children > 0 and rng.random() < 0.6
    front = call(PIPE, ENDS) if has_pipe else []
    before = int(has_pipe) + children
    bodies = [body_of(rng, rng.randint(1, most), has_pipe, k == 0 and children > 0) for k in range(children + 1)]
    words = list(front)
    places, size = [], 0
    # Each fork's child goes on at its own body, which stands behind the parent's.
    fork = call(FORK)
    length = len(front) + children * (len(fork) + 1)
    for body, _ in bodies:
        places.append(length + size)
        size += len(body)
    for k in range(children):
        words += fork
        words += branch(0, A0, 4 * (places[k + 1] - len(words)))
    for body, _ in bodies:
        words += body
    return with_data(words), [before + bodies[0][1], *(count for _, count in bodies[1:])]


def random_programs(rng):
    """Returns the words of one or two programs, and how many calls each process makes, by its number."""
    if rng.random() < 0.5:
        words, counts = program_of(rng, rng.randint(1, 2), 3)
        return [words], counts
    programs = [program_of(rng, 0, 4) for _ in range(rng.randint(2, 3))]
    return [words for words, _ in programs], [counts[0] for _, counts in programs]


def random_files(rng):
    """Returns lines for the files that are there before."""
    return [f"file {name.decode()} {rng.randbytes(rng.randint(1, 3)).hex()}" for name in NAMES if rng.random() < 0.5]


def reader_words():
    """Returns the words of the program that writes what the files hold, or ends at once where its tape is empty."""
    words = []
    for name in NAMES:
        words += call(OPEN, address_of(name), 1, 0) + move(S0, A0) + call(READ, [S0], BUFFER, 1024)
        words += move(S1, A0) + call(WRITE, 1, BUFFER, [S1])
    return with_data(call(READ, 0, BUFFER, 1) + branch(0, A0, 4 * len(words) + 4) + words + call(EXIT, 0))


# Orders


def orders_of(counts):
    """Returns the number of orders of calls, and each as process numbers."""
    total, number = 0, 1
    for count in counts:
        for k in range(1, count + 1):
            total += 1
            number = number * total // k
    def go(left):
        if not any(left):
            yield ()
            return
        for place, count in enumerate(left):
            if count:
                for rest in go((*left[:place], count - 1, *left[place + 1:])):
                    yield (place + 1, *rest)
    return number, go(tuple(counts))


class Orders:
    """Programs, and the orders of their calls. The program that writes what the files hold is the last."""

    def __init__(self, programs, counts, files, folder):
        self.folder, self.reader = folder, len(programs) + 1
        self.pids = [pid for pid in range(1, len(counts) + 2) if pid != self.reader]
        self.setup = [f"program {k} " + " ".join(f"{word:08x}" for word in words) for k, words in enumerate(programs)]
        self.setup.append(f"program {READER} " + " ".join(f"{word:08x}" for word in reader_words()))
        self.setup += files
        self.statuses = {}

    def bench(self, words, lines):
        """Runs a command on a script of these lines."""
        path = f"{self.folder}/script"
        with open(path, "w") as file:
            file.write("\n".join([*self.setup, *lines]) + "\n")
        return subprocess.run([BENCH, *words, path], capture_output=True, text=True)

    def printed(self, words, lines):
        ran = self.bench(words, lines)
        ran.check_returncode()
        return ran.stdout.splitlines()

    def status(self, pid, trace, event, lines):
        """Returns the status with which a process ended by an event."""
        if (pid, trace) not in self.statuses:
            last = self.printed(["replay", "--cone", str(event)], lines)[-1]
            self.statuses[pid, trace] = last.removeprefix("ended ")
        return self.statuses[pid, trace]

    def replayed(self, order):
        """Returns the outcome of an order, and how many calls it has."""
        pids = [self.pids[place - 1] for place in order]
        turns = [f"turn {pid} {LIMIT}" for pid in self.pids]
        run = [*turns]
        for pid in (*pids, *self.pids * len(order)):
            run += [f"enter {pid}", *turns]
        ask = ["drain", *(f"shown {it}" for it in range(TERMINALS)), *(f"trace {pid}" for pid in self.pids)]
        look = ["crash -", "files", *[f"turn {self.reader} {LIMIT}", f"enter {self.reader}"] * READER_CALLS, f"shown {READER}"]
        tape = f"tape {self.reader - 1} 00"
        said = self.printed(["replay"], [tape, *run, *ask, *look])
        answers, shown, rest = said[:len(run)], said[len(run) + 1:len(run) + 1 + TERMINALS], said[len(run) + 1 + TERMINALS:]
        # Refused events have no number.
        ended, event, calls = {}, 0, 0
        for line, answer in zip(run, answers):
            event += not answer.startswith("refused")
            calls += answer in ("entered", "ended")
            if answer == "ended":
                ended[int(line.split(" ")[1])] = event
        ends = []
        for pid in self.pids:
            length = int(rest[0].split(" ")[2]) + 1
            trace, rest = tuple(rest[:length]), rest[length:]
            ends.append(f"{pid}:" + (self.status(pid, trace, ended[pid], [tape, *run]) if pid in ended else "waits"))
        return (tuple(ends), tuple(shown), files_of(rest)), calls

    def explored(self):
        """Returns the outcomes that `bench explore` prints, each with how many calls it has."""
        ran = self.bench(["explore", "--save", self.folder], [])
        if ran.returncode:
            raise AssertionError(f"status {ran.returncode}: {ran.stderr}")
        for path in glob.glob(f"{self.folder}/outcome-*.script"):
            said = subprocess.run([BENCH, "replay", path], capture_output=True, text=True, check=True).stdout
            if "\nrefused" in said:
                raise AssertionError(f"{path}: {said}")
        found = {}
        for line in ran.stdout.splitlines()[:-1]:
            words = line.split(" ")
            ends, shown, files = (words.index(it) for it in ("ends", "shown", "files"))
            texts = dict(it.split(":") for it in words[shown + 1:files] if it != "-")
            if f"{self.reader}:0" not in words[ends:shown]:
                raise AssertionError(line)
            outcome = (
                tuple(it.split("-")[0] for it in words[ends + 1:shown] if not it.startswith(f"{self.reader}:")),
                tuple(f"shown {it} {texts.get(str(it), '-')}" for it in range(TERMINALS)),
                tuple(it for it in words[files + 1:] if it != "-"),
            )
            calls = int(words[3]) - READER_ENDS
            found[outcome] = min(calls, found.get(outcome, calls))
        return found


def files_of(said):
    """Returns the files after a crash, with their digests, as `explore` prints them."""
    count = int(said[1].split(" ")[1])
    lengths = dict(line.split(" ") for line in said[2:2 + count])
    written = bytes.fromhex(said[-1].split(" ")[2].replace("-", ""))
    digests = {}
    for name in (it.decode() for it in NAMES):
        length = int(lengths.get(name, 0))
        digests[name], written = hashlib.sha256(written[:length]).hexdigest()[:16], written[length:]
    if written:
        raise AssertionError(said)
    return tuple(f"{name}:{length}:{digests[name]}" for name, length in lengths.items())


def compare(seed):
    """Compares one random program. Returns how many orders and outcomes there were, and a difference, if there is one."""
    rng = random.Random(seed)
    while True:
        programs, counts = random_programs(rng)
        number, orders = orders_of(counts)
        if number <= MOST_ORDERS:
            break
    with tempfile.TemporaryDirectory(dir="/dev/shm" if os.path.isdir("/dev/shm") else None) as folder:
        it, wanted = Orders(programs, counts, random_files(rng), folder), {}
        for outcome, calls in map(it.replayed, orders):
            wanted[outcome] = min(calls, wanted.get(outcome, calls))
        found = it.explored()
    if wanted == found:
        return number, len(found), None
    apart = [f"{who}: {outcome} {calls}" for who, these, others in (("replay", wanted, found), ("explore", found, wanted))
             for outcome, calls in these.items() if others.get(outcome) != calls]
    return number, len(found), "\n".join([f"seed {seed}", *it.setup, *apart])


def main():
    runs, seed, jobs = (int(word) for word in (sys.argv[1:] + ["500", "1", str(os.cpu_count())][len(sys.argv) - 1:]))
    orders = outcomes = 0
    with concurrent.futures.ThreadPoolExecutor(jobs) as pool:
        for number, found, difference in pool.map(compare, range(seed, seed + runs)):
            if difference:
                print(difference)
                return 1
            orders, outcomes = orders + number, outcomes + found
    print(f"{runs} programs, {orders} orders, {outcomes} outcomes: the same")
    return 0


if __name__ == "__main__":
    sys.exit(main())

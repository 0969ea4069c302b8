#!/usr/bin/env python3
"""Compares `bench crashes --model` with another enumeration on random runs.

    random-crash-lists.py [RUNS] [SEED]

A run (1,000 where no number is given) is a tape of steps.c: it makes, writes, empties, renames and removes files, prints, and syncs. For each
rule of commits, ordered, delayed and posix, the lists of files that `bench crashes` prints are those of the enumeration below, which shares
no code with it: of each window, with as many cells apart, and also with at most 0, 1 and 2. With `--recover` a recovery that opens all files
is run once on each list with each promise: what was printed when no more changes were made than the list has.

BENCH names the program, or else it is ./bench of this repository. At the first difference the tape is printed, and the status is 1."""
import hashlib
import os
import random
import subprocess
import sys
import tempfile
from itertools import product

TOP = os.path.realpath(f"{os.path.dirname(os.path.realpath(__file__))}/..")
BENCH = os.environ.get("BENCH", f"{TOP}/bench")
IMAGE = f"{TOP}/examples/c/steps.image"
SECTOR, NAMES = 512, "abcd"
# A recovery that opens each file, and ends with status 0.
OPENS = "".join(f"la a0, {name}\n li a1, 1\n li a2, 0\n li a7, 4\n ecall\n" for name in NAMES)
LABELS = "".join(f'{name}: .ascii "{name}"\n' for name in NAMES)
RECOVERY = f"_start: {OPENS} li a0, 0\n li a7, 1\n ecall\n .data\n{LABELS}"


class State:
    """The names with the numbers of their files, and the bytes of each file; one that lost its name keeps its last."""

    def __init__(self, names=None, data=None):
        self.names, self.data = dict(names or {}), dict(data or {})

    def after(self, event):
        """Returns the state after an event."""
        state = State(self.names, self.data)
        kind, number = event[0], event[1]
        old = next((name for name, other in self.names.items() if other == number), None)
        if kind == "create":
            state.names[event[2]], state.data[number] = number, b""
        elif kind == "write":
            before, offset, content = self.data[number], event[2], event[3]
            state.data[number] = before[:offset] + bytes(max(0, offset - len(before))) + content + before[offset + len(content) :]
        elif kind == "empty":
            state.data[number] = b""
        elif kind == "remove":
            del state.names[old]
        else:
            del state.names[old]
            state.names[event[2]] = number
        return state


def states_of(base, changes):
    """Returns the states at each moment."""
    states = [base]
    for change in changes:
        states.append(states[-1].after(change))
    return states


def sector(content, k, length):
    """Returns the bytes of a cell of a file of this length."""
    end = min((k + 1) * SECTOR, length)
    return content[k * SECTOR : end].ljust(end - k * SECTOR, b"\0")


def count_sectors(size):
    """Returns how many cells a length has."""
    return (size + SECTOR - 1) // SECTOR


def extended(change, before):
    """Returns the cells that a write fills past the old end."""
    end = change[2] + len(change[3])
    return range(len(before) // SECTOR, (end - 1) // SECTOR + 1) if end > len(before) else range(0)


def touched(change, before):
    """Returns the cells that a write changes, a gap included."""
    return range(min(change[2], len(before)) // SECTOR, (change[2] + len(change[3]) - 1) // SECTOR + 1)


def directories(base, changes):
    """Returns, for each choice of a moment for each name by which renamings are whole, the names and which changes of them are there."""
    states, found = states_of(base, changes), []
    edits = {}
    for u, (before, after) in enumerate(zip(states, states[1:])):
        names = {name for name in {*before.names, *after.names} if before.names.get(name) != after.names.get(name)}
        if names:
            edits[u] = names
    edited = sorted(set().union(*edits.values()))
    for chosen in product(*([0, *(u + 1 for u, names in edits.items() if name in names)] for name in edited)):
        moment = dict(zip(edited, chosen))
        sides = {u: {moment[name] > u for name in names} for u, names in edits.items()}
        if all(len(side) == 1 for side in sides.values()):
            numbers = {name: states[moment.get(name, 0)].names.get(name) for name in {*base.names, *edited}}
            there = frozenset(u + 1 for u, side in sides.items() if side == {True})
            found.append(({name: number for name, number in numbers.items() if number is not None}, there))
    return found


def is_kept(states, changes, number, k, size, moment):
    """Returns whether a cell may be as at a moment under posix, by the emptyings."""
    for u, change in enumerate(changes):
        if change[0] == "empty" and change[1] == number and size <= u < moment:
            if not any(
                changes[v][0] == "write" and changes[v][1] == number and k in touched(changes[v], states[v].data[number])
                for v in range(u + 1, moment)
            ):
                return False
    return True


def is_ordered(states, changes, number, k, size, moment):
    """Returns whether a cell may be as at a moment under ordered and delayed."""
    for u, change in enumerate(changes):
        if change[0] == "empty" and change[1] == number and (size > u) != (moment > u):
            return False
        if change[0] == "write" and change[1] == number and size > u and k in extended(change, states[u].data[number]) and moment <= u:
            return False
    return True


def sizes_of(model, changes, number, common):
    """Returns the moments as at which a length may be."""
    if model == "posix":
        return range(len(changes) + 1)
    if model == "ordered":
        return [common]
    first = 0
    for u, change in enumerate(changes[:common]):
        if change[1] == number and change[0] in ("create", "empty"):
            first = u + 1
    return range(first, common + 1)


def contents_of(model, states, changes, number, common, most):
    """Returns what a file may hold, each with the least number of cells apart."""
    now, found = states[common].data.get(number, b""), {}
    allows = is_kept if model == "posix" else is_ordered
    for size in sizes_of(model, changes, number, common):
        length = len(states[size].data.get(number, b""))
        parts = [(int(length != len(now)), b"")]
        for k in range(count_sectors(length)):
            moments = [t for t in range(len(states)) if allows(states, changes, number, k, size, t)]
            values = {sector(states[t].data.get(number, b""), k, length) for t in moments}
            parts = [(cost + (value != sector(now, k, length)), begun + value) for cost, begun in parts for value in sorted(values)]
            parts = [part for part in parts if part[0] <= most]
        for cost, content in parts:
            if cost <= most:
                found[content] = min(cost, found.get(content, cost))
    return found


def lists_of(model, base, changes, most):
    """Returns the lists of files that a crash may leave, with at most so many cells apart, and how many are of each."""
    states, lists = states_of(base, changes), {}
    named = {i + 1 for i, change in enumerate(changes) if change[0] in ("create", "remove", "rename")}
    for common in range(len(states)):
        here = {at for at in named if at <= common}
        choices = directories(base, changes) if model == "posix" else [(states[common].names, frozenset(here))]
        for names, taken in choices:
            cost = len(here ^ taken)
            if cost > most:
                continue
            options = []
            for name, number in sorted(names.items()):
                held = contents_of(model, states, changes, number, common, most - cost)
                options.append([(name, content, apart) for content, apart in held.items()])
            for chosen in product(*options):
                files, apart = tuple((name, content) for name, content, _apart in chosen), cost + sum(apart for *_file, apart in chosen)
                if apart <= most:
                    lists[files] = min(apart, lists.get(files, apart))
    return lists


class Steps:
    """Makes a tape, and the windows of its run."""

    def __init__(self):
        self.lines, self.state, self.base, self.changes, self.windows, self.made = [], State(), State(), [], [], 0
        # What was printed, and each beginning of it, with the window when more was printed, or the window ended.
        self.printed, self.promised = "", []

    def do(self, line, event):
        """Adds a step and its change."""
        self.lines.append(line)
        self.changes.append(event)
        self.state = self.state.after(event)

    def sync(self):
        """Adds a sync, which ends a window."""
        self.lines.append("sync")
        self.end()

    def promise(self):
        """Adds what was printed by now."""
        self.promised.append((self.base, list(self.changes), self.printed))

    def say(self, letter):
        """Adds a print."""
        self.promise()
        self.lines.append(f"say {letter}")
        self.printed += letter

    def end(self):
        """Ends a window."""
        self.promise()
        self.windows.append((self.base, self.changes))
        self.base, self.changes = self.state, []

    def new(self, name):
        """Makes or empties a file."""
        if name in self.state.names:
            self.do(f"new {name}", ("empty", self.state.names[name]))
        else:
            self.made += 1
            self.do(f"new {name}", ("create", self.made, name))

    def write(self, name, at, count, byte):
        """Writes at a place, or at the end."""
        number = self.state.names[name]
        place = len(self.state.data[number]) if at is None else at
        line = f"add {name} {count} {byte}" if at is None else f"put {name} {at} {count} {byte}"
        self.do(line, ("write", number, place, byte.encode() * count))


def random_steps(rng):
    """Returns the steps of a random run. Most begin with files that are on the disk, since an emptying of these tells most."""
    steps = Steps()
    for name in rng.sample("ab", rng.choice((0, 1, 1, 2))):
        steps.new(name)
        steps.write(name, None, rng.choice((3, 700, 1024)), "z")
    if steps.lines:
        steps.sync()
    for _ in range(rng.randint(1, 6)):
        names, chance = sorted(steps.state.names), rng.random()
        if chance < 0.25 or not names:
            steps.new(rng.choice("abc"))
        elif chance < 0.65:
            steps.write(rng.choice(names), rng.choice((None, 0, 500)), rng.choice((3, 300, 600)), rng.choice("pqrs"))
        elif chance < 0.75:
            name = rng.choice(names)
            steps.do(f"gone {name}", ("remove", steps.state.names[name]))
        elif chance < 0.8:
            steps.say(rng.choice("xy"))
        elif chance < 0.9:
            old, new = rng.choice(names), rng.choice(NAMES)
            if old != new:
                steps.do(f"name {old} {new}", ("rename", steps.state.names[old], new))
        else:
            steps.sync()
    steps.end()
    return steps


def printed_of(files):
    """Returns a list as bench prints it, in the order of names."""
    return " ".join(sorted(f"{name}:{len(content)}:{hashlib.sha256(content).hexdigest()[:16]}" for name, content in files)) or "-"


def wanted_of(model, windows, most):
    """Returns, of each window with lists that no window before it has, those lists as bench prints them, and how many cells of each are apart."""
    known, wanted = set(), []
    for base, changes in windows:
        lists = {}
        for files, apart in lists_of(model, base, changes, most).items():
            text = printed_of(files)
            lists[text] = min(apart, lists.get(text, apart))
        new = {text: apart for text, apart in lists.items() if text not in known}
        known |= lists.keys()
        if new:
            wanted.append(new)
    return wanted


def recovered(model, promised, most):
    """Returns on how many disks a recovery is run, and how often."""
    pairs = {(printed_of(files), printed) for base, changes, printed in promised for files in lists_of(model, base, changes, most)}
    return f"{len({files for files, _printed in pairs})} disks, {len(pairs)} recoveries"


def said_by_bench(tape, model, most, *more):
    """Returns the lines that bench prints."""
    words = [BENCH, "crashes", "--model", model, "--apart", str(most), *more, "--tape", "-", IMAGE]
    done = subprocess.run(words, input=tape, capture_output=True, check=False)
    if done.returncode != 0:
        sys.exit(f"{' '.join(words)}: status {done.returncode}: {done.stderr.decode()}\n{tape.decode()}")
    return done.stdout.decode().splitlines()


def lists_by_bench(tape, model, most):
    """Returns the lists that bench prints, of each window apart, and how many cells of each are apart."""
    windows = {}
    for line in said_by_bench(tape, model, most):
        if " files " in line:
            where, files = line.split(" files ", 1)
            event, apart = where.split()[3:6:2]
            windows.setdefault(event, {})[" ".join(sorted(files.split()))] = int(apart)
    return list(windows.values())


def main():
    """Compares random runs."""
    runs, seed = (int(word) for word in (sys.argv[1:] + ["1000", "1"][len(sys.argv) - 1 :])[:2])
    rng, lists = random.Random(seed), 0
    folder = tempfile.TemporaryDirectory()
    recovery = f"{folder.name}/opens.s"
    with open(recovery, "w", encoding="ascii") as file:
        file.write(RECOVERY)
    for run in range(runs):
        steps = random_steps(rng)
        tape = "".join(f"{line}\n" for line in steps.lines).encode()
        model = ("ordered", "delayed", "posix")[run % 3]
        for most in (0, 1, 2, 99):
            wanted, found = wanted_of(model, steps.windows, most), lists_by_bench(tape, model, most)
            lists += sum(len(window) for window in found)
            if found == wanted:
                wanted = recovered(model, steps.promised, most)
                found = said_by_bench(tape, model, most, "--jobs", "1", "--nested", "0", "--recover", recovery)[-1]
                found = wanted if found.startswith(f"{wanted}, all") else found
            if found != wanted:
                print(f"{model}, at most {most} apart, seed {seed} run {run}\n{tape.decode()}\nby bench: {found}\nhere: {wanted}")
                return 1
    print(f"{runs} runs: {lists} lists")
    return 0


if __name__ == "__main__":
    sys.exit(main())

#!/usr/bin/env python3
"""Compares `bench crashes` with `bench replay` on random scripts.

    random-crashes.py [RUNS] [SEED] [JOBS]

A script (2,000 where no number is given) has one or two programs, which make, write, empty, rename and remove files, and print, and lines
that cut groups, complete writes or let them fail, drain, and crash. For each crash that `bench crashes` tries, `bench replay` runs the
lines before it, a line `crash FILL` and a line `files`. Both are compared with a small model of files and of the disk below, which
also knows the bytes of the files, and so the digests that `bench replay` does not print.

`bench crashes --recover` has to try crashes too where terminal 0 shows more, which `bench replay` says. It has to find as many disks as the
model, and to run a recovery that opens all files once on each disk with each promise. Of a recovery that fails, `bench replay` refuses no
line of the scripts that are saved.

BENCH names the program, or else it is ./bench of this repository. The last line says how many scripts and crashes were compared; at
the first difference the script, and what came of it, is printed, and the status is 1."""
import concurrent.futures
import hashlib
import os
import random
import subprocess
import sys
import tempfile

TOP = os.path.realpath(f"{os.path.dirname(os.path.realpath(__file__))}/..")
BENCH = os.environ.get("BENCH", f"{TOP}/bench")
FILLS = ("00", "01", "7fff", "-")
NAMES = (b"a", b"b", b"c.new", b"d:1")
# A recovery that opens each file, and ends with status 0.
OPENS = "".join(f"la a0, name{k}\n li a1, {len(name)}\n li a2, 0\n li a7, 4\n ecall\n" for k, name in enumerate(NAMES))
LABELS = "".join(f'name{k}: .ascii "{name.decode()}"\n' for k, name in enumerate(NAMES))
RECOVERY = f"_start: {OPENS} li a0, 0\n li a7, 1\n ecall\n .data\n{LABELS}"
FAILS = "_start: li a0, 1\n li a7, 1\n ecall\n"
RECOVER = ("--jobs", "1", "--nested", "0", "--recover")
# The changes of a group, and the bytes of a piece of its record.
GROUP, PIECE = 64, 4096
FIRST_GATE = 64
# Registers.
S0, A0, A1, A2, A7 = 8, 10, 11, 12, 17
OPEN, WRITE, CLOSE, UNLINK, RENAME, EXIT = 4, 2, 5, 12, 13, 1
# The descriptor that stands for the terminal.
TERMINAL = 1


# Programs: a list of calls, each with its arguments. A call that takes a descriptor takes what the last open replied.


def random_calls(rng):
    """Returns the calls of a random program."""
    calls = []
    for _ in range(rng.randint(1, 4)):
        kind = rng.random()
        if kind < 0.6:
            calls.append((OPEN, rng.choice(NAMES), rng.choice((2, 2, 2, 1))))
            for _ in range(rng.randint(0, 2)):
                calls.append((WRITE, rng.randbytes(rng.choice((0, 1, 3, 20, 1024)))))
            calls.append((CLOSE,))
        elif kind < 0.75:
            calls.append((RENAME, rng.choice(NAMES), rng.choice(NAMES)))
        elif kind < 0.9:
            calls.append((WRITE, rng.choice((b"ok", b"\n")), TERMINAL))
        else:
            calls.append((UNLINK, rng.choice(NAMES)))
    return [*calls, (EXIT,)]


def load_words(register, value):
    """Returns the two instructions, lui and addi, that put a number into a register."""
    low = (value & 0xFFF) - ((value & 0x800) << 1)
    return [(value - low) & 0xFFFFF000 | register << 7 | 0x37, (low & 0xFFF) << 20 | register << 15 | register << 7 | 0x13]


def copy_word(to, register):
    """Returns the instruction that copies a register."""
    return register << 15 | to << 7 | 0x13


def arguments_of(call, place):
    """Returns what a1, a2 and, where it is no descriptor, a0 hold at a call, and the bytes that it takes from this place."""
    match call:
        case (4, name, mode):
            return {A0: place, A1: len(name), A2: mode}, name
        case (2, content):
            return {A1: place, A2: len(content)}, content
        case (2, content, descriptor):
            return {A0: descriptor, A1: place, A2: len(content)}, content
        case (12, name):
            return {A0: place, A1: len(name)}, name
        case (13, name, other):
            return {A0: place, A1: len(name), A2: len(other)}, name + other
        case (5,):
            return {}, b""
    return {A0: 0}, b""


def words_of(calls):
    """Returns the words of a program that makes these calls, and after them the bytes that they take."""
    # At most ten instructions a call.
    start = 0x10000 + 4 * 10 * len(calls)
    code, kept = [], b""
    for call in calls:
        values, taken = arguments_of(call, start + len(kept))
        kept += taken
        if A0 not in values:
            code.append(copy_word(A0, S0))
        for register, value in (*values.items(), (A7, call[0])):
            code += load_words(register, value)
        code.append(0x73)
        if call[0] == OPEN:
            code.append(copy_word(S0, A0))
    code += [0] * ((start - 0x10000) // 4 - len(code))
    kept += bytes(-len(kept) % 4)
    return code + [int.from_bytes(kept[i : i + 4], "little") for i in range(0, len(kept), 4)]


# The model: files, what changes them, and the disk with its writes in flight.


class File:
    def __init__(self, name, content=b""):
        self.name, self.content = name, content


def changed(files, change):
    """Returns the files after a change, which names a file by its place."""
    files = [File(it.name, it.content) for it in files]
    match change:
        case ("create", name):
            files.append(File(name))
        case ("write", place, offset, content):
            was = files[place].content.ljust(offset, b"\0")
            files[place].content = was[:offset] + content + was[offset + len(content) :]
        case ("empty", place):
            files[place].content = b""
        case ("remove", place):
            del files[place]
        case ("rename", place, name):
            renamed = files[place]
            renamed.name = name
            files = [it for it in files if it is renamed or it.name != name]
    return files


def size_of(change):
    """Returns how many bytes a change takes on the disk."""
    match change:
        case ("create", name):
            return 2 + len(name)
        case ("write", _, _, content):
            return 9 + len(content)
        case ("rename", _, name):
            return 4 + len(name)
    return 3


def outcome_of(files):
    """Returns what `bench crashes` prints of these files."""
    words = [f"{it.name.decode()}:{len(it.content)}:{hashlib.sha256(it.content).hexdigest()[:16]}" for it in files]
    return " ".join(["files", *(words or ["-"])])


class Process:
    """A program as it runs: its next call, whether it stands at it, and the descriptor, if there is one, with its offset."""

    def __init__(self, calls):
        self.calls, self.at_call, self.file, self.offset = list(calls), False, None, 0


class Model:
    """A run since a boot, on a disk that held these files up to this gate."""

    def __init__(self, programs, files, gate):
        self.files, self.gate = files, gate
        self.processes = [Process(calls) for calls in programs]
        # The files that live, each by what it is; `after` has them by their bytes after each number of changes.
        self.living = [File(it.name, it.content) for it in files]
        self.after, self.changes, self.committed = [files], [], 0
        self.events, self.stages, self.group, self.has_failed, self.is_gate_torn = 0, [], 0, False, False
        # How many changes were cut, in how many groups.
        self.cut_changes, self.groups = 0, 0

    def change(self, change):
        self.changes.append(change)
        self.after.append(changed(self.after[-1], change))

    def place(self, name):
        return next((i for i, it in enumerate(self.living) if it.name == name), None)

    def open(self, process, name, mode):
        place = self.place(name)
        process.file, process.offset = None, 0
        if mode == 2 and place is None:
            self.living.append(File(name))
            self.change(("create", name))
            process.file = self.living[-1]
        elif place is not None:
            process.file = self.living[place]
            if mode == 2:
                self.change(("empty", place))

    def write(self, process, content):
        if process.file in self.living and content:
            self.change(("write", self.living.index(process.file), process.offset, content))
            process.offset += len(content)

    def rename(self, name, other):
        place, loser = self.place(name), self.place(other)
        if place is None or name == other:
            return
        self.change(("rename", place, other))
        self.living[place].name = other
        if loser is not None:
            del self.living[loser]

    def unlink(self, name):
        place = self.place(name)
        if place is not None:
            self.change(("remove", place))
            del self.living[place]

    def turn(self, number):
        process = self.processes[number - 1]
        if process.calls:
            process.at_call = True
            self.events += 1

    def enter(self, number):
        process = self.processes[number - 1]
        if not process.at_call:
            return
        process.at_call = False
        self.events += 1
        match process.calls.pop(0):
            case (4, name, mode):
                self.open(process, name, mode)
            case (2, content):
                self.write(process, content)
            case (13, name, other):
                self.rename(name, other)
            case (12, name):
                self.unlink(name)
            case (5,):
                process.file = None

    def body_size(self):
        return sum(map(size_of, self.changes[self.committed : self.committed + self.group]))

    def cut(self):
        """Whether a group is cut."""
        if self.has_failed or self.stages or self.committed == len(self.changes):
            return False
        self.events += 1
        self.group = min(GROUP, len(self.changes) - self.committed)
        self.cut_changes, self.groups = self.cut_changes + self.group, self.groups + 1
        self.stages = [[self.gate + 1 + i for i in range(0, self.body_size() + 5, PIECE)], [self.gate]]
        return True

    def in_flight(self):
        return self.stages[0] if self.stages else []

    def complete(self, at):
        """Whether the write there is completed."""
        if at not in self.in_flight():
            return False
        self.events += 1
        self.stages[0].remove(at)
        if not self.stages[0] and not self.has_failed:
            del self.stages[0]
            if not self.stages:
                self.gate += self.body_size() + 5
                self.committed += self.group
        return True

    def fail(self, at):
        """Whether the write there fails."""
        if at not in self.in_flight():
            return False
        self.events += 1
        self.stages[0].remove(at)
        self.has_failed, self.is_gate_torn = True, at == self.gate
        return True

    def crash(self, fill):
        """Returns the files that a crash leaves, and the first gate that is not open then."""
        if fill.startswith("01") and (self.is_gate_torn or self.gate in self.in_flight()):
            return self.after[self.committed + self.group], self.gate + self.body_size() + 5
        return self.after[self.committed], self.gate


# Scripts, and what is to come of them.


class Case:
    """A script as far as it is written, with what `bench crashes` is to print, and each crash that it is to try."""

    def __init__(self, rng):
        self.rng, self.programs = rng, [random_calls(rng) for _ in range(rng.choice((1, 1, 2)))]
        terminals = (0, rng.choice((0, 0, 1)))
        self.lines = [f"program {terminal} {' '.join(f'{it:08x}' for it in words_of(calls))}" for terminal, calls in zip(terminals, self.programs)]
        # The same lines with the events of each drain in its place.
        self.events = list(self.lines)
        self.printed, self.outcomes, self.crashes, self.boot = [], set(), [], 1
        # After how many lines a crash may come, whether the disk changed there, and what crashes leave then.
        self.moments = []
        self.between, self.uncut = 0, 0
        self.model = Model(self.programs, [], FIRST_GATE)
        self.try_crashes()
        for _ in range(rng.randint(5, 25)):
            self.add_line()
        self.end()
        sums = f"{len(self.crashes)} crashes, {len(self.outcomes)} outcomes"
        if self.between:
            sums += f"; {self.between} disks between changes of one group were not tried"
        if self.uncut:
            sums += f"; {self.uncut} disks after changes that were never cut were not tried"
        self.printed.append(sums)

    def end(self):
        """Counts the disks that no crash of a boot leaves."""
        model = self.model
        self.between += model.cut_changes - model.groups
        self.uncut += len(model.changes) - model.cut_changes

    def note_moment(self, is_of_disk):
        left = [frozenset((it.name, it.content) for it in self.model.crash(fill)[0]) for fill in FILLS]
        self.moments.append((len(self.events), is_of_disk, left))

    def try_crashes(self):
        self.note_moment(True)
        model = self.model
        for fill in FILLS:
            files, _ = model.crash(fill)
            outcome = outcome_of(files)
            where = f"boot {self.boot} event {model.events} in flight {len(model.in_flight())} fill {fill}"
            if outcome not in self.outcomes:
                self.printed.append(f"{where} committed {model.committed} {outcome}")
            self.outcomes.add(outcome)
            names = [f"{it.name.decode()} {len(it.content)}" for it in files]
            self.crashes.append(([*self.events, f"crash {fill}", "files"], ["crashed", f"files {len(files)}", *names]))

    def event(self, line, is_accepted):
        self.events.append(line)
        if is_accepted:
            self.try_crashes()

    def drain(self):
        self.lines.append("drain")
        model = self.model
        while not model.has_failed and model.committed < len(model.changes):
            if model.in_flight():
                at = min(model.in_flight())
                self.event(f"complete {at}", model.complete(at))
            else:
                self.event("cut", model.cut())

    def start_again(self):
        self.end()
        fill = self.rng.choice((*FILLS, "017f", "0001"))
        self.lines.append(f"crash {fill}")
        self.events.append(f"crash {fill}")
        files, gate = self.model.crash(fill)
        self.model, self.boot = Model(self.programs, files, gate), self.boot + 1
        self.try_crashes()

    def of_disk(self):
        """Adds a cut, or a completion or a failure, mostly of a write that is in flight."""
        rng, model = self.rng, self.model
        if rng.random() < (0.1 if model.in_flight() else 0.9):
            self.lines.append("cut")
            return self.event("cut", model.cut())
        at = rng.choice([*model.in_flight() * 4, model.gate])
        word, act = ("fail", model.fail) if rng.random() < 0.06 else ("complete", model.complete)
        self.lines.append(f"{word} {at}")
        return self.event(self.lines[-1], act(at))

    def add_line(self):
        kind = self.rng.random()
        if kind < 0.5:
            number = self.rng.randint(1, len(self.programs))
            for line, act in ((f"turn {number} 100", self.model.turn), (f"enter {number}", self.model.enter)):
                act(number)
                self.lines.append(line)
                self.events.append(line)
                self.note_moment(False)
        elif kind < 0.9:
            self.of_disk()
        elif kind < 0.96:
            self.drain()
        else:
            self.start_again()


def ran(folder, name, lines, *command):
    """Returns what the program prints of a script of these lines."""
    path = f"{folder}/{name}"
    with open(path, "w", encoding="ascii") as file:
        file.write("\n".join(lines))
    done = subprocess.run([BENCH, *command, path], capture_output=True, text=True, check=False)
    os.remove(path)
    if done.returncode:
        return [f"status {done.returncode}", done.stderr]
    return done.stdout.splitlines()


def shown_after(folder, case):
    """Returns what terminal 0 has shown after each number of the script's lines, in all boots so far."""
    setup = len(case.programs)
    lines = case.events[:setup]
    for line in case.events[setup:]:
        lines += ["shown 0", line]
    said = [it.split()[-1].replace("-", "") for it in ran(folder, "script", [*lines, "shown 0"], "replay") if it.startswith("shown 0 ")]
    shown, earlier = {}, ""
    for count, text in enumerate(said, setup):
        if count > setup and case.events[count - 1].startswith("crash "):
            earlier = shown[count - 1]
        shown[count] = earlier + text
    return shown


def recovered(folder, case):
    """Returns how the last line begins of a recovery that is run where disk or promise is new."""
    crashes, files, pairs, last = 0, set(), set(), None
    shown = shown_after(folder, case)
    for count, is_of_disk, left in case.moments:
        if is_of_disk or shown[count] != last:
            crashes, last = crashes + len(left), shown[count]
            files.update(left)
            pairs.update((disk, last) for disk in left)
    return crashes, len(files), len(pairs)


def refused_of(folder, case, pairs):
    """Returns the lines that are refused of the scripts of a recovery that fails on some disk with its promise."""
    part = ("--part", f"{case.rng.randint(1, pairs)}/{pairs}", "--save", folder)
    ran(folder, "script", case.lines, "crashes", *part, *RECOVER, f"{folder}/fails.s")
    said = []
    for name in ("run.script", "recovery.script"):
        said += subprocess.run([BENCH, "replay", f"{folder}/{name}"], capture_output=True, text=True, check=True).stdout.splitlines()
    return [line for line in said if line.startswith("refused")]


def difference(seed):
    """Returns how many crashes of a script were compared, and what came out otherwise, if something did."""
    case = Case(random.Random(seed))
    with tempfile.TemporaryDirectory() as folder:
        came = ran(folder, "script", case.lines, "crashes")
        if came != case.printed:
            return 0, case.lines, case.printed, came
        with open(f"{folder}/opens.s", "w", encoding="ascii") as file:
            file.write(RECOVERY)
        with open(f"{folder}/fails.s", "w", encoding="ascii") as file:
            file.write(FAILS)
        crashes, disks, pairs = recovered(folder, case)
        wanted = f"{crashes} crashes, {disks} disks, {pairs} recoveries"
        came = ran(folder, "script", case.lines, "crashes", *RECOVER, f"{folder}/opens.s")
        if came[-1].split(";")[0] != wanted:
            return 0, case.lines, [wanted], came
        refused = refused_of(folder, case, pairs)
        if refused:
            return 0, case.lines, [], refused
        for lines, wanted in case.crashes:
            came = ran(folder, "script", lines, "replay")[-len(wanted) :]
            if came != wanted:
                return 0, lines, wanted, came
    return len(case.crashes), None, None, None


def main():
    runs = int(sys.argv[1]) if len(sys.argv) > 1 else 2000
    first = int(sys.argv[2]) if len(sys.argv) > 2 else 1
    jobs = int(sys.argv[3]) if len(sys.argv) > 3 else os.cpu_count()
    crashes = 0
    with concurrent.futures.ThreadPoolExecutor(jobs) as pool:
        for seed, (count, lines, wanted, came) in zip(range(first, first + runs), pool.map(difference, range(first, first + runs))):
            if lines is not None:
                print(f"script {seed}:", *lines, "wanted:", *wanted, "came:", *came, sep="\n")
                pool.shutdown(cancel_futures=True)
                return 1
            crashes += count
    print(f"{runs} scripts, {crashes} crashes: no difference")
    return 0


if __name__ == "__main__":
    sys.exit(main())

#!/usr/bin/env python3
"""Compares `bench exec --log` with single steps of `bench debug`, on random programs and on the examples, or on tests of GCC.

    random-logs.py [--gcc] [RUNS] [SEED] [JOBS]

A run (200 where no number is given) has one or two random sources: instructions of all kinds, loads and stores of each width, calls and
functions, and the system calls of random-records.py, with an end by `exit`, by a trap or in the middle. The first runs take the sources
in examples/. It is run by `exec` with a random seed, or without one, with a limit, `--record` and `--log`, of process 1, 2 or 3. The
replies of that process are read of the record, by `replay`, and `debug` goes through the program with them, a step at a time. Each line
of the log is made anew, of the words and registers that `debug` prints, and has to be the same. How many lines there are is compared
with `exec --json`. At last `diff` has to find the log equal to what was made.

With --gcc a run takes one of GCC's execution tests, as torture.sh builds them at -O1 by build.sh, and its first instructions. KEEP names
the folder in which what is built stands, where it is to be kept.

BENCH names the program, or else it is ./bench of this repository. The last line says how many runs and instructions were compared; at
the first difference the sources are printed, or the test is named, and the status is 1."""
import concurrent.futures
import glob
import importlib.util
import json
import os
import random
import re
import subprocess
import sys
import tempfile

sys.dont_write_bytecode = True
HERE = os.path.dirname(os.path.realpath(__file__))
TOP = os.path.realpath(f"{HERE}/..")
LIMIT = 3000
LIMIT_OF_GCC = 10000
NAMES = "zero ra sp gp tp t0 t1 t2 s0 s1 a0 a1 a2 a3 a4 a5 a6 a7 s2 s3 s4 s5 s6 s7 s8 s9 s10 s11 t3 t4 t5 t6".split()
REGISTERS = {name: number for number, name in enumerate(NAMES)}
COUNT = re.compile(r"count (\d+), pc ([0-9a-f]{8})(?:: (?:([0-9a-f]{8})  .*|no word may be fetched here))?$")
CHANGE = re.compile(r"  ([a-z]+\d*) ([0-9a-f]{8}) -> ([0-9a-f]{8})$")
HELD = re.compile(r"([a-z]+\d*) +([0-9a-f]{8})")
LOADS, STORES, ECALL, FORK = 0x03, 0x23, 0x73, 7
WRITES_NONE = (STORES, 0x63, 0x0F)
# The bytes that a load or a store takes, by its funct3.
WIDTHS = {0: 1, 1: 2, 2: 4, 4: 1, 5: 2}


def module_of(path):
    """Returns a file of this folder as a module, whatever its name is."""
    spec = importlib.util.spec_from_file_location("records", path)
    found = importlib.util.module_from_spec(spec)
    spec.loader.exec_module(found)
    return found


records = module_of(f"{HERE}/random-records.py")
Differs, call = records.Differs, records.call


def bench(folder, *words, given=b""):
    return subprocess.run([records.BENCH, *words], cwd=folder, input=given, capture_output=True, timeout=120)


# Random sources.

FREE = ("t0", "t1", "t2", "a3", "a4", "a5", "s2", "s3", "s11", "t6")
THREE = "add sub xor or and sll srl sra slt sltu mul mulh mulhu mulhsu div divu rem remu".split()
IMMEDIATE = "addi xori ori andi slti sltiu".split()


def random_instruction(rng, place):
    """Returns the lines of a random instruction, or of a few that belong together."""
    to, one, other = (rng.choice(FREE) for _ in range(3))
    kind = rng.randrange(10)
    if kind < 3:
        return [f"{rng.choice(THREE)} {to},{one},{other}"]
    if kind < 5:
        return [f"{rng.choice(IMMEDIATE)} {rng.choice((to, 'zero'))},{one},{rng.randrange(-2048, 2048)}"]
    if kind == 5:
        name, width = rng.choice((("lb", 1), ("lbu", 1), ("lh", 2), ("lhu", 2), ("lw", 4)))
        return [f"{name} {rng.choice((to, 'zero'))},{width * rng.randrange(64 // width)}(s1)"]
    if kind == 6:
        name, width = rng.choice((("sb", 1), ("sh", 2), ("sw", 4)))
        return [f"{name} {one},{width * rng.randrange(64 // width)}(s1)"]
    if kind == 7:
        return [f"{rng.choice(('beq', 'bne', 'blt', 'bgeu'))} {one},{other},past{place}", f"xori {to},{one},5", f"past{place}: nop"]
    if kind == 8:
        return rng.choice(([f"lui {to},{rng.randrange(1 << 20)}"], [f"auipc {to},{rng.randrange(1 << 20)}"], ["fence"], ["fence.i"], ["call twice"]))
    return [f"{rng.choice(('slli', 'srli', 'srai'))} {to},{one},{rng.randrange(32)}"]


def random_end(rng):
    """Returns the lines of an end: `exit`, a trap, or none, where the text ends."""
    return rng.choice((call(1, rng.randrange(3)), ["sw a0,0(zero)"], ["lw a0,1(s1)"], ["ebreak"], [".word 0"], ["jr zero"], []))


def random_source(rng):
    lines = ["_start: la s1,place"]
    for place in range(rng.randint(2, 14)):
        for part in range(rng.randrange(6)):
            lines += random_instruction(rng, f"{place}at{part}")
        lines += records.random_step(rng, place)
    lines += [*random_end(rng), "twice: slli t3,s2,1", "ret"]
    data = ['text: .ascii "abcdefgh"', ".space 400", 'name: .ascii "fg"', ".space 2", "room: .space 64", "place: .word 0x80ff7f01", ".space 60"]
    return "\n".join([*lines, ".data", *data, ""])


# What `debug` says.


def replies_of(folder, process):
    """Returns the lines of a process's replies, by the record."""
    with open(f"{folder}/run.script", "a", encoding="ascii") as file:
        file.write(f"trace {process}\n")
    lines = bench(folder, "replay", "run.script").stdout.decode().splitlines()
    first = max(place for place, line in enumerate(lines) if line.startswith("trace "))
    return lines[first + 1:]


def states_of(printed):
    """Yields the place, the word and the registers before each instruction, and last the end."""
    held, place = dict.fromkeys(NAMES, 0), None
    for line in printed.splitlines():
        count, change = COUNT.match(line), CHANGE.match(line)
        if count:
            if place:
                yield place, dict(held)
            place = int(count[1]), int(count[2], 16), int(count[3] or "0", 16)
        elif change:
            held[change[1]] = int(change[3], 16)
        elif not line.startswith("  "):
            held.update((name, int(value, 16)) for name, value in HELD.findall(line) if name in REGISTERS)
    yield place, dict(held)


def line_of(at, word, before, after):
    """Returns the line of an instruction, by the registers before and after it."""
    text, kind = f"core   0: 3 0x{at:08x} (0x{word:08x})", word & 127
    to = 10 if word == ECALL else word >> 7 & 31
    if kind not in WRITES_NONE and to:
        text += f" x{to:<2} 0x{after[NAMES[to]]:08x}"
    if kind in (LOADS, STORES):
        base, width = before[NAMES[word >> 15 & 31]], WIDTHS[word >> 12 & 7]
        far = word >> 20 if kind == LOADS else word >> 25 << 5 | word >> 7 & 31
        text += f" mem 0x{base + (far ^ 0x800) - 0x800 & 0xFFFFFFFF:08x}"
        if kind == STORES:
            text += f" 0x{before[NAMES[word >> 20 & 31]] & (1 << 8 * width) - 1:0{2 * width}x}"
    return text


def wanted_lines(folder, image, process, steps):
    """Returns the lines of so many instructions of a process, by `debug`. A child's begin after the fork by which it came to be."""
    with open(f"{folder}/trace", "w", encoding="ascii") as file:
        file.write("\n".join([*replies_of(folder, process), ""]))
    given = "state\n" + "step\n" * steps
    ran = bench(folder, "debug", image, "--trace", "trace", given=given.encode())
    if ran.returncode:
        raise Differs(ran.stderr.decode())
    lines, begin, last = [], 0, None
    for place, held in states_of(ran.stdout.decode()):
        if last and place[0] == last[0][0] + 1:
            (_count, at, word), before = last
            lines.append(line_of(at, word, before, held))
            if word == ECALL and before["a7"] == FORK and held["a0"] == 0:
                begin = len(lines)
        last = place, held
    return lines[begin:]


# Comparing.


def count_of(told, process):
    """Returns how many lines the log of a process has to have, and None where there is no such process."""
    for it in told["processes"]:
        if it["process"] == process:
            return it["instructions"] + sum(made["count"] for made in it["calls"]) - (it["state"] == "exited")
    return None


def logged(folder, words, process, images):
    """Returns the log of a run, or None where the process does not come to be."""
    ran = bench(folder, *words, "--json", "--record", "run.script", "--log", "log", "--log-of", str(process), *images)
    if ran.returncode == 125:
        raise Differs(ran.stderr.decode())
    with open(f"{folder}/log", encoding="ascii") as file:
        log = file.read().splitlines()
    count = count_of(json.loads(ran.stdout), process)
    if len(log) != (count or 0):
        raise Differs(f"the log has {len(log)} lines, and {count} are wanted")
    return None if count is None else log


def compare(folder, words, process, images):
    """Compares the log of a run, and returns how many lines it has. Of two programs it is not known whose child process 3 is."""
    log = logged(folder, words, process, images)
    if not log or process > len(images) > 1:
        return 0
    steps = 3 * LIMIT if process > 1 else len(log)
    wanted = wanted_lines(folder, images[process - 1 if len(images) > 1 else 0], process, steps)[:len(log)]
    for number, (one, other) in enumerate(zip(log, wanted)):
        if one != other:
            raise Differs(f"line {number + 1} is\n{one}\nand by debug\n{other}")
    if len(wanted) < len(log):
        raise Differs(f"debug comes to {len(wanted)} of {len(log)} lines")
    with open(f"{folder}/wanted", "w", encoding="ascii") as file:
        file.write("\n".join([*wanted, ""]))
    said = bench(folder, "diff", "log", "wanted").stdout.decode()
    if said != f"equal, {len(log)} instructions\n":
        raise Differs(f"diff says {said}")
    return len(log)


def sources_of(rng, number):
    """Returns the sources of a run: an example for the first runs, and then random ones."""
    examples = sorted(glob.glob(f"{TOP}/examples/*.s"))
    if number < len(examples):
        with open(examples[number], encoding="utf-8") as file:
            return [file.read()]
    return [random_source(rng) for _ in range(rng.choice((1, 1, 2)))]


def run(seed, number):
    """Runs what a seed gives, and returns how many lines were compared."""
    rng = random.Random(seed)
    sources = sources_of(rng, number)
    images = [f"{place}.image" for place in range(len(sources))]
    words = ["exec", "--tape", "tape", "--limit", str(LIMIT)]
    words += ["--seed", str(rng.randrange(1 << 40))] if rng.random() < 0.7 else []
    process = rng.choice((1, 1, 2, 3))
    with tempfile.TemporaryDirectory() as folder:
        try:
            for source, image in zip(sources, images):
                with open(f"{folder}/source.s", "w", encoding="utf-8") as file:
                    file.write(source)
                made = bench(folder, "asm", "source.s", image)
                if made.returncode:
                    raise Differs(made.stderr.decode())
            with open(f"{folder}/tape", "wb") as file:
                file.write(rng.randbytes(rng.choice((0, 3, 100))))
            return compare(folder, words, process, images)
        except Differs as why:
            raise Differs(f"seed {seed}: {why}\n{' '.join(words)} --log-of {process}\n" + "\n".join(sources)) from why


def tests_of_gcc(folder, count, seed, jobs):
    """Returns the images of so many tests, which are built in a folder where they are not there already."""
    words = ["--build", "--keep", folder, "--sample", count, "--seed", seed, "--levels", "-O1", "--jobs", jobs]
    subprocess.run([f"{HERE}/torture.sh", *map(str, words)], check=True, stdout=subprocess.DEVNULL)
    return sorted(glob.glob(f"{folder}/**/*-O1/script", recursive=True))


def run_test(image):
    """Compares the log of a test of GCC's, and returns how many lines it has."""
    with tempfile.TemporaryDirectory() as folder:
        try:
            return compare(folder, ["exec", "--limit", str(LIMIT_OF_GCC)], 1, [image])
        except Differs as why:
            raise Differs(f"{image}: {why}") from why


def main():
    words = [it for it in sys.argv[1:] if it != "--gcc"]
    runs, first, jobs = (int(given) for given in (words + ["200", "1", "4"][len(words):]))
    with concurrent.futures.ThreadPoolExecutor(jobs) as pool, tempfile.TemporaryDirectory() as room:
        if "--gcc" in sys.argv:
            images = tests_of_gcc(os.environ.get("KEEP", room), runs, first, jobs)
            counts, runs = pool.map(run_test, images), len(images)
        else:
            counts = pool.map(run, range(first, first + runs), range(runs))
        try:
            lines = sum(counts)
        except Differs as why:
            print(why)
            sys.exit(1)
    print(f"{runs} runs, {lines} instructions: each log is what debug steps through")


if __name__ == "__main__":
    main()

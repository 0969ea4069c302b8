#!/usr/bin/env python3
"""Measures the loop of bench's machine: how fast it does the instructions of programs in C.

    loop-speed.py [--bench PROGRAM] [--before OLD] [--qemu] [--counts] [--rounds N] [FILE.c ..]

Prints for each FILE.c (the nine programs of crates/test_runner/data/c if none is given) millions of instructions a second, and at the
end the geometric mean of the ratios. With --before it prints the ratio to another program, with --qemu that to qemu-riscv32, of the
same rounds: each round (7 if N is not given) runs all of them once, and the median counts. With --counts it prints host instructions
for one emulated, by valgrind: these are the same each time.

A FILE.c has a `main` without arguments, which is run over and over, and needs no C library. It is built with -O2. Needs
riscv64-unknown-elf-gcc, with --qemu Debian's qemu-user, with --counts valgrind."""
import argparse
import glob
import os
import re
import statistics
import subprocess
import sys
import tempfile
import time

TOP = os.path.realpath(f"{os.path.dirname(os.path.realpath(__file__))}/..")
BUILD = f"{TOP}/examples/c/build.sh"
# How many instructions a program does in one run, or somewhat more.
INSTRUCTIONS = 300_000_000
# Between these limits the host's instructions are counted.
FEW, MANY = 1_000_000, 6_000_000
LIMIT = 4_294_967_295
# The program's `main` is `run_once` here: build.sh gives every source the same flags.
REPEATED = """
#undef main
int run_once(void);
void *memcpy(void *to, const void *from, unsigned n) { char *t = to; const char *f = from; while (n--) *t++ = *f++; return to; }
void *memset(void *to, int c, unsigned n) { char *t = to; while (n--) *t++ = c; return to; }
int main(void) {
    int sum = 0;
    for (int i = 0; i < TIMES; i++) sum += run_once();
    return sum & 127;
}
"""
# Linux's exit, for QEMU.
START = "_start: call main\n li a7, 93\n ecall\n.globl _start\n"
FLAGS = ("-O2", "-Dmain=run_once", "-fno-builtin")
LINUX = ("-march=rv32im", "-mabi=ilp32", "-nostdlib", "-static", "-ffreestanding", "-Wl,--no-relax")


def built(command):
    """Runs a command that builds something, and ends this program where it fails."""
    ran = subprocess.run(command, capture_output=True, text=True)
    if ran.returncode:
        sys.exit(f"loop-speed: {command[0]} failed:\n{ran.stderr}")


class Program:
    """One program in C, built so that it runs for some time."""

    def __init__(self, source, bench, room, is_for_qemu):
        self.name = os.path.splitext(os.path.basename(source))[0]
        self.place = f"{room}/{self.name}"
        self.image = f"{self.place}.image"
        with open(f"{self.place}_again.c", "w", encoding="utf-8") as file:
            file.write(REPEATED)
        self.make(source, 1)
        once = self.run(bench)[0]
        self.times = max(1, INSTRUCTIONS // once)
        self.make(source, self.times)
        if is_for_qemu:
            start = f"{self.place}_start.s"
            with open(start, "w", encoding="utf-8") as file:
                file.write(START)
            flags = [*FLAGS, *LINUX, f"-DTIMES={self.times}", source, f"{self.place}_again.c", start]
            built(["riscv64-unknown-elf-gcc", *flags, "-lgcc", "-o", f"{self.place}.qemu"])

    def make(self, source, times):
        built([BUILD, *FLAGS, f"-DTIMES={times}", source, f"{self.place}_again.c", self.image])

    def script(self, limit):
        return f"image 0 {self.image}\nturn 1 {limit}\n"

    def run(self, bench, limit=LIMIT):
        """Runs it, and returns how many instructions it did and the seconds."""
        begun = time.perf_counter()
        ran = subprocess.run([bench], input=self.script(limit), capture_output=True, text=True)
        seconds = time.perf_counter() - begun
        found = re.match(r"ran (\d+) ", ran.stdout)
        if not found:
            sys.exit(f"loop-speed: {self.name}: {ran.stdout}{ran.stderr}")
        return int(found[1]), seconds

    def run_by_qemu(self):
        begun = time.perf_counter()
        ran = subprocess.run(["qemu-riscv32", f"{self.place}.qemu"], stdout=subprocess.DEVNULL)
        if ran.returncode < 0 or ran.returncode > 127:
            sys.exit(f"loop-speed: {self.name}: qemu-riscv32 ended with {ran.returncode}")
        return time.perf_counter() - begun

    def counted(self, bench, limit):
        """How many host instructions a run up to a limit takes."""
        command = ["valgrind", "--tool=callgrind", "--callgrind-out-file=/dev/null", bench]
        ran = subprocess.run(command, input=self.script(limit), capture_output=True, text=True)
        return int(re.search(r"Collected : (\d+)", ran.stderr)[1])


def print_counts(programs, bench):
    """Prints host instructions for one emulated, of each program and their geometric mean."""
    each = [(it.counted(bench, MANY) - it.counted(bench, FEW)) / (MANY - FEW) for it in programs]
    for it, count in zip(programs, each):
        print(f"{it.name:10} {count:6.2f} host instructions for one")
    print(f"{'mean':10} {statistics.geometric_mean(each):6.2f}")


def print_speeds(programs, words):
    """Prints the speed of each program, and the ratios to what it is compared with."""
    others = {"the one before": words.before} if words.before else {}
    if words.qemu:
        others["QEMU"] = None
    ratios = {name: [] for name in others}
    seconds = {(it, name): [] for it in programs for name in ("bench", *others)}
    counts = {}
    for _ in range(words.rounds):
        for it in programs:
            counts[it], taken = it.run(words.bench)
            seconds[it, "bench"].append(taken)
            for name, path in others.items():
                seconds[it, name].append(it.run(path)[1] if path else it.run_by_qemu())
    for it in programs:
        own = statistics.median(seconds[it, "bench"])
        line = f"{it.name:10} {counts[it] / own / 1e6:6.0f} million a second"
        for name in others:
            ratios[name].append(statistics.median(seconds[it, name]) / own)
            line += f"   {ratios[name][-1]:.3f} of {name}"
        print(line, flush=True)
    for name, found in ratios.items():
        print(f"{'mean':10} {statistics.geometric_mean(found):.3f} of {name}")


def main():
    words = argparse.ArgumentParser(description=__doc__, formatter_class=argparse.RawDescriptionHelpFormatter)
    words.add_argument("--bench", default=f"{TOP}/crates/bench/out/bench")
    words.add_argument("--before", metavar="OLD")
    words.add_argument("--qemu", action="store_true")
    words.add_argument("--counts", action="store_true")
    words.add_argument("--rounds", type=int, default=7)
    words.add_argument("sources", nargs="*", metavar="FILE.c")
    words = words.parse_args()
    sources = words.sources or sorted(glob.glob(f"{TOP}/crates/test_runner/data/c/*.c"))
    with tempfile.TemporaryDirectory(prefix="loop-speed-") as room:
        programs = [Program(it, words.bench, room, words.qemu) for it in sources]
        if words.counts:
            print_counts(programs, words.bench)
        else:
            print_speeds(programs, words)


if __name__ == "__main__":
    main()

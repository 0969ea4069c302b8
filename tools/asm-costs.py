#!/usr/bin/env python3
"""Says what `bench asm` takes for a source of 1 MiB, which is the longest.

    asm-costs.py [--bench PROGRAM] [--before OLD] [--rounds N]

The source has instructions of most forms, labels, comments and blank lines, and is the same each time. Each round (7 if N is not
given) assembles it and a source of one instruction; a cost is the processor time of the one less that of the other, and the median of
the rounds is told. With --before a second program is measured in the same rounds, and the ratio of the two is told."""
import argparse
import os
import random
import statistics
import subprocess
import sys
import tempfile

sys.dont_write_bytecode = True

from measures import TOP

LENGTH = 1_048_576
# So many words are text; comments take the rest.
WORDS = 40_000
REGISTERS = "a0 a1 t0 s1 x5 zero ra sp t6 s11".split()
SHORT = "_start: ecall\n"


def line_of(choice, label):
    """A line, and how many words it takes. `label` is how many labels there are so far."""
    a, b, c = (choice.choice(REGISTERS) for _ in range(3))
    near = choice.randrange(-2048, 2048)
    forms = [
        (f"l{label}: addi {a},{b},{near}   # a label", 1), (f"        lw   {a},{near}({b})", 1), (f"        sw   {a},{near}({b})", 1),
        (f"        beq  {a},{b},l{label - 1}", 1), (f"        jal  ra,l{label - 1}", 1), (f"        mv   {a},{b}", 1),
        (f"        add  {a},{b},{c}", 1), (f"        li   {a},{choice.randrange(4096, 1 << 31) | 1:#x}", 2),
        (f"        srai {a},{b},{choice.randrange(32)}", 1), ("# a comment alone", 0), ("", 0), ("        ecall", 1),
    ]
    return choice.choice(forms)


def source():
    """The source of 1 MiB."""
    choice, lines, words, labels = random.Random(1), ["_start: nop", "l0:     nop"], 2, 1
    length = sum(len(it) + 1 for it in lines)
    while True:
        line, more = line_of(choice, labels) if words < WORDS else ("        # a comment alone", 0)
        if length + len(line) + 1 > LENGTH:
            return "\n".join(lines) + "\n"
        lines.append(line)
        length, words, labels = length + len(line) + 1, words + more, labels + line.startswith("l")


def seconds_of(bench, source, image):
    """How long the processors take to assemble a source."""
    process = subprocess.Popen([bench, "asm", source, image], stdout=subprocess.DEVNULL)
    _, status, used = os.wait4(process.pid, 0)
    process.returncode = os.waitstatus_to_exitcode(status)
    if process.returncode:
        sys.exit(f"{bench} asm {source}: status {process.returncode}")
    return used.ru_utime + used.ru_stime


def main():
    words = argparse.ArgumentParser(description=__doc__, formatter_class=argparse.RawDescriptionHelpFormatter)
    words.add_argument("--bench", default=f"{TOP}/crates/bench/out/bench")
    words.add_argument("--before")
    words.add_argument("--rounds", type=int, default=7)
    given = words.parse_args()
    programs = [given.bench] + [given.before] * bool(given.before)
    found = {it: [] for it in programs}
    with tempfile.TemporaryDirectory(prefix="asm-costs-") as room:
        texts = {"long": source(), "short": SHORT}
        for name, text in texts.items():
            with open(f"{room}/{name}.s", "w", encoding="ascii") as file:
                file.write(text)
        for _ in range(given.rounds):
            for bench in programs:
                long, short = (seconds_of(bench, f"{room}/{name}.s", f"{room}/{name}.img") for name in texts)
                found[bench].append(long - short)
    costs = [statistics.median(found[it]) for it in programs]
    lines = texts["long"].count("\n")
    print(f"asm of {len(texts['long']):,} bytes, {lines:,} lines: {1e3 * costs[0]:.1f} ms, {1e9 * costs[0] / lines:.0f} ns a line")
    if given.before:
        print(f"before: {1e3 * costs[1]:.1f} ms; the ratio is {costs[0] / costs[1]:.2f}")


if __name__ == "__main__":
    main()

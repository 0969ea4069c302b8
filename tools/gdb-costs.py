#!/usr/bin/env python3
"""Says how fast a program runs in gdb over `bench gdb`, and how soon an interrupt is answered.

    gdb-costs.py [--bench PROGRAM] [--millions N] [--runs K] [WORDS..]

A program of so many words of text (24, 4,000 and 20,000 if none are given) goes round N million instructions (400 if it is not given):
by a turn of `bench replay`, which is the loop's own speed, and by `continue` in gdb, with no breakpoint and with one that is never
reached. Then gdb goes back over ten million instructions by `reverse-continue`, with a breakpoint that never stands there, and with a
watch that is never met. Of K runs (3 if it is not given) the fastest counts. Then Ctrl-C is given to gdb one second after each way
begins: what is told is the time until gdb stands still and has said where, the longest of K. At last programs without end run until
their history of 64 MiB is full, or the processes beside one that waits: what is told is the program's peak resident size. GDB names
gdb, gdb-multiarch if it is not set."""
import argparse
import os
import re
import signal
import subprocess
import sys
import tempfile
import time

TOP = os.path.realpath(f"{os.path.dirname(os.path.realpath(__file__))}/..")
GDB = os.environ.get("GDB", "gdb-multiarch")
BACK = 10_000_000
STAMP = "shell date +%s.%N"
SOURCE = """.data
cell:  .word 0
other: .word 0
.text
_start: la   t0, cell
        li   t2, 0
round:  addi t1, t1, 3
        xor  t2, t2, t1
        lw   t3, 0(t0)
        add  t3, t3, t2
        srli t4, t3, 3
        and  t4, t4, t1
        bne  t4, t5, next
        addi t5, t5, 1
next:   j    round
never:  nop
        .space {rest}
"""
# Programs without end, and one that waits for what nobody does.
ENDLESS = {
    "computes": "_start: j _start",
    "writes pages": """.data
cells:  .space 212992
.text
_start: la   t0, cells
        li   t1, 52
        li   t2, 4096
        addi t3, t3, 1
round:  sw   t3, 0(t0)
        add  t0, t0, t2
        addi t1, t1, -1
        bnez t1, round
        j    _start
""",
    "makes calls": "_start: li a7, 9\necall\nj _start",
    "writes to a terminal": ".data\nrow: .space 1024\n.text\n_start: li a0, 1\nla a1, row\nli a2, 1024\nli a7, 2\necall\nj _start",
}
WAITS = ".data\nends: .word 0, 0\n.text\n_start: la a0, ends\nli a7, 6\necall\nla a1, ends\nlw a0, 0(a1)\nli a2, 1\nli a7, 3\necall"
HISTORY = 64
# The words of the text but for the space, and the addresses of `never`, of `other` and of `_start`.
OWN, START = 13, 0x10000
NEVER = START + 4 * (OWN - 1)


def program(folder, bench, words):
    """Makes the image of a program of so many words, and returns its name, and where its second word of data stands."""
    with open(f"{folder}/{words}.s", "w", encoding="ascii") as file:
        file.write(SOURCE.format(rest=4 * (words - OWN)))
    made = subprocess.run([bench, "asm", f"{words}.s", f"{words}.image"], cwd=folder, capture_output=True, text=True, check=True).stdout
    if not made.startswith(f"{4 * words} text bytes, 8 data bytes, entry"):
        sys.exit(f"gdb-costs: {made}")
    return f"{words}.image", START + -(-4 * words // 4096) * 4096 + 4


def gdb_words(bench, image, lines):
    """Returns the words that run gdb over these lines of its own, with the time where a line is empty."""
    first = ["set pagination off", "set confirm off", "set sysroot", "set remotetimeout 60", f"target remote | {bench} gdb {image}"]
    given = [word for line in [*first, *lines] for word in ("-ex", line or STAMP)]
    return [GDB, "-nx", "-q", "-batch", *given]


def times_in(printed):
    """Returns the times that stand alone on lines."""
    return [float(line) for line in printed.splitlines() if re.fullmatch(r"\d+\.\d{9}", line)]


def timed(folder, bench, image, lines, wanted):
    """Returns how long gdb takes for the lines between the two that are empty, after which it has to have printed something."""
    with open(os.devnull, encoding="ascii") as none:
        ran = subprocess.run(gdb_words(bench, image, lines), cwd=folder, stdin=none, capture_output=True, text=True, timeout=600, check=False)
    times = times_in(ran.stdout)
    if len(times) != 2 or wanted not in ran.stdout:
        sys.exit(f"gdb-costs: {lines}: {ran.stdout[-500:]}{ran.stderr[-500:]}")
    return times[1] - times[0]


def replayed(folder, bench, image, count):
    """Returns how long `replay` takes for one turn of so many instructions."""
    with open(f"{folder}/script", "w", encoding="ascii") as file:
        file.write(f"image 0 {image}\nturn 1 {count}\n")
    begin = time.monotonic()
    printed = subprocess.run([bench, "replay", "script"], cwd=folder, capture_output=True, text=True, check=True).stdout
    if printed != f"ran {count} limit\n":
        sys.exit(f"gdb-costs: {printed}")
    return time.monotonic() - begin


def interrupted(folder, bench, image, lines):
    """Returns how long after a Ctrl-C gdb stands still, which is given a second after the last of the lines began."""
    with subprocess.Popen(
        gdb_words(bench, image, [*lines[:-1], "", lines[-1], "", "print $count"]),
        cwd=folder, stdin=subprocess.DEVNULL, stdout=subprocess.PIPE, stderr=subprocess.STDOUT, text=True,
    ) as it:
        printed = ""
        for line in it.stdout:
            printed += line
            if times_in(printed):
                break
        time.sleep(1)
        given = time.time()
        it.send_signal(signal.SIGINT)
        printed += it.stdout.read()
    times = times_in(printed)
    if len(times) != 2 or "SIGINT" not in printed:
        sys.exit(f"gdb-costs: {lines}: {printed[-500:]}")
    return times[1] - given


def peak_of(folder, bench, images):
    """Returns the peak resident size of a session, in MiB, whose first process ran as far as its history goes."""
    packets = b"".join(b"$%s#%02x" % (it, sum(it) % 256) for it in (b"QStartNoAckMode", b"c"))
    words = [bench, "gdb", "--history", str(HISTORY), *images]
    with subprocess.Popen(words, cwd=folder, stdin=subprocess.PIPE, stdout=subprocess.PIPE) as it:
        it.stdin.write(packets)
        it.stdin.flush()
        printed = b""
        while b"$T05" not in printed:
            part = it.stdout.read1(65536)
            if not part:
                sys.exit(f"gdb-costs: {images}: {printed!r}")
            printed = printed[-3:] + part
        with open(f"/proc/{it.pid}/status", encoding="ascii") as file:
            peak = int(re.search(r"VmHWM:\s+(\d+) kB", file.read())[1]) / 1024
        it.communicate()
    return peak


def print_peaks(folder, bench):
    """Prints how much memory programs without end take."""
    for place, text in enumerate([*ENDLESS.values(), WAITS]):
        with open(f"{folder}/{place}.s", "w", encoding="ascii") as file:
            file.write(text)
        subprocess.run([bench, "asm", f"{place}.s", f"{place}.image"], cwd=folder, stdout=subprocess.DEVNULL, check=True)
    for place, name in enumerate(ENDLESS):
        print(f"a program that {name}, --history {HISTORY}: a peak of {peak_of(folder, bench, [f'{place}.image']):.0f} MiB", flush=True)
    for place, name in list(enumerate(ENDLESS))[2:]:
        peak = peak_of(folder, bench, [f"{len(ENDLESS)}.image", *7 * [f"{place}.image"]])
        print(f"one that waits, beside seven that each {name}: a peak of {peak:.0f} MiB", flush=True)


def print_speeds(folder, bench, words, count, runs):
    """Prints how fast a program of so many words runs."""
    image, _ = program(folder, bench, words)
    until = [f"monitor until {count}"]
    ways = {
        "replay": lambda: replayed(folder, bench, image, count) - replayed(folder, bench, image, 1),
        "gdb": lambda: timed(folder, bench, image, [*until, "", "continue", ""], "SIGTRAP"),
        "with a breakpoint": lambda: timed(folder, bench, image, [*until, f"break *{NEVER:#x}", "", "continue", ""], "SIGTRAP"),
    }
    times = [{name: way() for name, way in ways.items()} for _ in range(runs)]
    best = {name: 1e9 / count * min(it[name] for it in times) for name in ways}
    loop = best["replay"]
    told = ", ".join(f"{name} {it:.2f}" for name, it in best.items())
    print(f"{words} words of text, ns an instruction: {told}; {loop / best['gdb']:.2f} and {loop / best['with a breakpoint']:.2f} of the loop's speed", flush=True)


def main():
    given = argparse.ArgumentParser(description=__doc__, formatter_class=argparse.RawDescriptionHelpFormatter)
    given.add_argument("--bench", default=f"{TOP}/crates/bench/out/bench")
    given.add_argument("--millions", type=int, default=400)
    given.add_argument("--runs", type=int, default=3)
    given.add_argument("words", type=int, nargs="*", default=[24, 4000, 20_000])
    given = given.parse_args()
    bench = os.path.abspath(given.bench)
    with tempfile.TemporaryDirectory(prefix="gdb-costs-") as folder:
        for words in given.words:
            print_speeds(folder, bench, words, 1_000_000 * given.millions, given.runs)
        image, cell = program(folder, bench, 24)
        there = [f"monitor until {BACK}", "continue"]
        points = {"a breakpoint": f"break *{NEVER:#x}", "a watch": f"watch *(int *) {cell:#x}"}
        for name, point in points.items():
            lines = [*there, point, "", "reverse-continue", ""]
            took = min(timed(folder, bench, image, lines, "No more reverse-execution history") for _ in range(given.runs))
            print(f"reverse-continue over {BACK:,} instructions with {name}: {took:.2f} s", flush=True)
        ways = {"continue": ["continue"]}
        ways.update({f"continue with {name}": [point, "continue"] for name, point in points.items()})
        far = [f"monitor until {40 * BACK}", "continue"]
        ways.update({f"reverse-continue with {name}": [*far, point, "reverse-continue"] for name, point in points.items()})
        for name, lines in ways.items():
            longest = max(interrupted(folder, bench, image, lines) for _ in range(given.runs))
            print(f"Ctrl-C in {name}: answered in {1000 * longest:.0f} ms", flush=True)
        print_peaks(folder, bench)


main()

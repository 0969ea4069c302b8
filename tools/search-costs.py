#!/usr/bin/env python3
"""Measures what searches cost: `bench explore` of ten programs, and `bench crashes --recover` of one that saves often.

    search-costs.py [--bench PROGRAM] [--rounds N] [--before OLD] [--page] [NAME..]

NAME is orders, jobs or recoveries; all three, if none is given. Times are seconds of processors, of all threads together, but for jobs:
that is how many times as fast a large search comes to its end by more threads, so it wants a host on which nothing else runs. Each is the
median of N rounds (3 if N is not given), and in brackets stand the least and the greatest. With --before a second program is measured in
the same rounds, and in place of the brackets stands how much of its time is left. Memory is the most that a run had, in MB, by one
thread. With --page the lines are rows of the tables in docs/COSTS.md.

The programs of orders are those of which docs/EXPLORE.md tells, and others of some ten calls for each process."""
import argparse
import os
import statistics
import subprocess
import sys
import tempfile
from typing import NamedTuple

sys.dont_write_bytecode = True

from measures import TOP, Bench, Run

EXIT, WRITE, READ, OPEN, CLOSE, PIPE, FORK, WAIT, SEEK, RENAME = 1, 2, 3, 4, 5, 6, 7, 8, 10, 13
# How a file is opened: to be read, to be written, and empty, where it is made if it is not there.
TO_READ, TO_WRITE, EMPTY = 0, 1, 2
TERMINAL = 1
# How often a key is set in the rows of recoveries.
SETS = 25, 100, 200, 400
# Data of all programs: the descriptors of pipes stand at `ends`, a letter at each of `letter0` to `letter5`. The name `cur` follows `new`, as a
# call of rename wants it.
DATA = "\n        .data\nends: .space 32\nbuffer: .space 8\nother: .space 8\n" + "".join(
    f'{label}: .ascii "{text}"\n' for label, text in (
        *((f"letter{number}", letter) for number, letter in enumerate("abcdef")),
        *((it, it) for it in ("f", "g", "h", "new", "cur", "log", "ok")), ("none", "-"),
    )
)


def call(number, *arguments):
    """The lines of a call. An argument is a number, a register, or the name of a place in memory."""
    lines = []
    for place, it in enumerate(arguments):
        kind = "li" if isinstance(it, int) else "mv" if it in ("s0", "s1", "s2", "s3") else "la"
        lines.append(f"        {kind} a{place},{it}")
    return "\n".join([*lines, f"        li a7,{number}", "        ecall", ""])


def loaded(descriptor, number, *arguments):
    """The same, where the first argument is a descriptor that stands in memory."""
    return f"        lw s3,{descriptor}\n" + call(number, "s3", *arguments)


def opened(name, mode):
    return call(OPEN, name, len(name), mode) + "        mv s0,a0\n"


def said(place, length=1):
    return call(WRITE, TERMINAL, place, length)


def letter(number):
    return said(f"letter{number}")


def source(text):
    return "_start:\n" + text + DATA


def numbered(count, body):
    """Forks, so that there are so many processes. Then each has its number, 0 for the parent, and does what `body` gives for it."""
    text = ""
    for number in range(1, count):
        text += call(FORK) + f"        beqz a0,child{number}\n"
    text += body(0)
    for number in range(1, count):
        text += f"child{number}:\n" + body(number)
    return text


def pipes(count, full):
    """Makes so many pipes, of which each holds a byte where they are to be full."""
    text = "        la s2,ends\n"
    for number in range(count):
        text += call(PIPE, "s2")
        if full:
            text += "        lw s0,4(s2)\n" + call(WRITE, "s0", "letter0", 1)
        text += "        addi s2,s2,8\n"
    return text + "        la s2,ends\n"


def philosophers(count):
    def body(number):
        left, right = 8 * number, 8 * ((number + 1) % count)
        text = "".join(loaded(f"{it}(s2)", READ, "buffer", 1) for it in (left, right)) + letter(number)
        return text + "".join(loaded(f"{it + 4}(s2)", WRITE, "buffer", 1) for it in (right, left)) + call(EXIT, number)

    return [source(pipes(count, True) + numbered(count, body))]


def ring(count):
    def body(number):
        text = "" if number else loaded("4(s2)", WRITE, "letter0", 1)
        text += loaded(f"{8 * ((number - 1) % count)}(s2)", READ, "buffer", 1) + letter(number)
        return text + (loaded(f"{8 * number + 4}(s2)", WRITE, "buffer", 1) if number else "") + call(EXIT, number)

    return [source(pipes(count, False) + numbered(count, body))]


def children(count):
    collected = call(WAIT, "buffer") + "        la s0,buffer\n        lw t0,0(s0)\n        addi t0,t0,48\n        sw t0,8(s0)\n" + said("other")

    def body(number):
        return letter(number - 1) + call(EXIT, number - 1) if number else collected * count + call(EXIT, 0)

    return [source(numbered(count + 1, body))]


def appenders():
    def program(number):
        append = call(SEEK, "s1", "s0") + call(WRITE, "s1", f"letter{number}", 1) + letter(number) + call(EXIT, 0)
        text = call(OPEN, "log", 3, TO_WRITE) + "        mv s1,a0\n        bltz a0,make\n" + opened("log", TO_READ)
        text += call(READ, "s0", "buffer", 16) + "        mv s0,a0\n" + append
        return source(text + "make:\n" + call(OPEN, "log", 3, EMPTY) + "        mv s1,a0\n        li s0,0\n" + append)

    return [program(0), program(1)]


def savers(readers):
    """A program saves a file by a new one that it renames, twice. Others read what they find, twice."""
    text = ""
    for number in range(2):
        text += opened("new", EMPTY) + call(WRITE, "s0", f"letter{number}", 1) + call(CLOSE, "s0")
        text += call(RENAME, "new", 3, 3) + said("ok", 2)
    saver, text = source(text + call(EXIT, 0)), ""
    for number in range(2):
        text += opened("cur", TO_READ) + f"        bltz a0,none{number}\n" + call(READ, "s0", "buffer", 1) + said("buffer") + call(CLOSE, "s0")
        text += f"        j next{number}\nnone{number}:\n" + said("none") + f"next{number}:\n"
    return [saver, *[source(text + call(EXIT, 0))] * readers]


def strangers(count, calls):
    return [source("".join(map(letter, range(calls))) + call(EXIT, 0))] * count


def writers(count):
    """Programs that write a file of their own twice. A fourth one gives an empty name, and is refused."""
    rest = call(WRITE, "s0", "letter0", 1) * 2 + letter(0) + call(EXIT, 0)
    opens = [*(opened(it, EMPTY) for it in "fgh"), call(OPEN, "f", 0, EMPTY) + "        mv s0,a0\n"]
    return [source(it + rest) for it in opens[:count]]


def lost_update():
    with open(f"{TOP}/examples/lost-update.s", encoding="ascii") as file:
        return [file.read()]


MANY_CHILDREN = "4 children, waited for"
PROGRAMS = {
    "a lost update, 3 processes": lost_update,
    "2 that append to a file": appenders,
    "3 philosophers": lambda: philosophers(3),
    "4 philosophers": lambda: philosophers(4),
    "3 children, waited for": lambda: children(3),
    MANY_CHILDREN: lambda: children(4),
    "commit by rename, 1 reader": lambda: savers(1),
    "commit by rename, 2 readers": lambda: savers(2),
    "a ring of 4 pipes": lambda: ring(4),
    "4 strangers": lambda: strangers(4, 6),
    "4 with files": lambda: writers(4),
}
# Opens the file that store.c keeps, reads it, and ends.
RECOVERY = "_start:\n" + call(OPEN, "name", 5, TO_READ) + "        mv s0,a0\n" + call(READ, "s0", "buffer", 64) + call(EXIT, 0) + """
        .data
buffer: .space 64
name:   .ascii "store"
"""


class Row(NamedTuple):
    """A row of a table: what it is of, with its counts, and how much is done in a run, by which a rate is reckoned."""

    cells: tuple
    done: int
    words: tuple


class Measures:
    """The program, one to compare it with, and how often both are run."""

    def __init__(self, given, room):
        self.bench, self.rounds, self.is_page = Bench(given.bench, room), given.rounds, given.page
        self.before = Bench(given.before, room) if given.before else None

    def counts(self, *words):
        """The three numbers of the last line that the program prints."""
        run = subprocess.run([self.bench.path, *words], stdin=subprocess.DEVNULL, stdout=subprocess.PIPE, check=True, text=True)
        return [int(it.split()[0]) for it in run.stdout.splitlines()[-1].split(", ")[:3]]

    def times(self, words):
        """The times of the rounds, the median of those of the program before, and the most memory."""
        benches = [it for it in (self.bench, self.before) if it]
        used = [[it.time(Run(words), looks=True) for it in benches] for _ in range(self.rounds)]
        now = [it[0].processor for it in used]
        return now, statistics.median(it[-1].processor for it in used), max(it[0].memory for it in used)

    def line(self, row):
        """Measures a row, and prints it."""
        times, before, memory = self.times(row.words)
        time = statistics.median(times)
        spread = f"{time / before:.2f} of before" if self.before else f"{min(times):.3g} to {max(times):.3g}"
        self.print(*row.cells, f"{time:.3g} ({spread})", f"{row.done / time:,.0f}", f"{memory / 1e6:.0f}")

    def print(self, *cells):
        print(f"| {' | '.join(cells)} |" if self.is_page else "; ".join(cells), flush=True)

    def images(self, sources):
        return [self.bench.image(it.replace("{", "{{").replace("}", "}}")) for it in sources]


def orders(measures):
    measures.print("programs", "states", "calls", "outcomes", "seconds", "states a second", "MB")
    for name, sources in PROGRAMS.items():
        words = ("explore", "--jobs", "1", *measures.images(sources()))
        counts = measures.counts(*words)
        measures.line(Row((name, *(f"{it:,}" for it in counts)), counts[0], words))


def jobs(measures):
    """How much faster a search of some 30,000 states ends by more threads."""
    images, walls = measures.images(PROGRAMS[MANY_CHILDREN]()), {}
    measures.print("threads", "times as fast")
    for count in (1, 2, 4):
        run = Run(("explore", "--jobs", str(count), *images))
        walls[count] = statistics.median(measures.bench.time(run).wall for _ in range(measures.rounds))
        measures.print(str(count), f"{walls[1] / walls[count]:.2f}")


def recoveries(measures):
    measures.print("sets", "crashes", "disks", "recoveries", "seconds", "recoveries a second", "MB")
    store, recovery = f"{TOP}/examples/c/store.image", measures.images([RECOVERY])[0]
    for sets in SETS:
        tape = measures.bench.file("".join(f"set a {it}\n" for it in range(sets)).encode(), ".tape")
        words = ("crashes", "--jobs", "1", "--tape", tape, "--recover", recovery, store)
        counts = measures.counts(*words)
        measures.line(Row((str(sets), *(f"{it:,}" for it in counts)), counts[-1], words))


TABLES = {"orders": orders, "jobs": jobs, "recoveries": recoveries}


def main():
    words = argparse.ArgumentParser(description=__doc__, formatter_class=argparse.RawDescriptionHelpFormatter)
    words.add_argument("--bench", default=f"{TOP}/crates/bench/out/bench")
    words.add_argument("--before", help="a program to compare it with")
    words.add_argument("--rounds", type=int, default=3)
    words.add_argument("--page", action="store_true", help="print rows of a table")
    words.add_argument("names", nargs="*", metavar="NAME", help=", ".join(TABLES))
    given = words.parse_args()
    unknown = [it for it in given.names if it not in TABLES]
    if unknown:
        words.error(f"there is no {unknown[0]}: there are {', '.join(TABLES)}")
    for path in filter(None, (given.bench, given.before)):
        if not os.access(path, os.X_OK):
            words.error(f"there is no program at {path}: build it by ./bench, or give another")
    with tempfile.TemporaryDirectory(prefix="bench-searches-") as room:
        measures = Measures(given, room)
        for name in given.names or TABLES:
            TABLES[name](measures)


if __name__ == "__main__":
    main()

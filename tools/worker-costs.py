#!/usr/bin/env python3
"""Measures what workers and waiting processes cost in `bench run`, each beside what is wanted.

    worker-costs.py [--bench NEW] [--before OLD] [--rounds N] [--processor] [--raw FILE] [NAME..]

Each figure compares two kinds of runs, which take turns, round by round. It is the median of the rounds (5 if N is not given), and
in brackets stand the least and the greatest. With --before a second program is measured in the same rounds. So what stands in one
line may be compared, also on a busy host; the lines of two hosts may not. A figure of four workers needs four processors with
nothing else to do. `load` says how many threads wanted one, the mean of the last minute.

With --processor the times are not those from a run's beginning to its end, but those of the processors, of all threads together. On
a busy host these say more, but nothing of how well four workers share the work. With --raw each run's times are appended to a file.
NAME names some of the figures alone. The last line says how many were reached; the status is 1 where one was not."""
import argparse
import contextlib
import json
import os
import statistics
import sys
import tempfile

sys.dont_write_bytecode = True

from measures import CALLS, HERD, LOOP, LOOP_LENGTH, SLEEPERS, TOP, Bench, Run

# How many instructions each copy of the program that computes does, at least, and how many the one beside idle workers does.
SHORT, LONG = 120_000_000, 500_000_000
# More than any program here does.
ENOUGH = 4_294_967_295


class Figure:
    """What is measured: its name, what it says, what is wanted of it, and how it comes of a round."""

    def __init__(self, what, wanted, measure, unit="", rounds=None):
        self.what, self.wanted, self.measure, self.unit, self.rounds = what, wanted, measure, unit, rounds


class Measures:
    """One program, with the images of all figures."""

    def __init__(self, path, label, room, raw, by_processor):
        self.bench, self.label, self.raw, self.by_processor = Bench(path, room), label, raw, by_processor
        self.images = {}

    def used(self, name, *runs):
        used = self.bench.time(*runs)
        if self.raw:
            print(json.dumps([name, self.label, round(used.wall, 4), round(used.processor, 4), os.getloadavg()[0]]), file=self.raw, flush=True)
        return used

    def time(self, name, *runs):
        used = self.used(name, *runs)
        return used.processor if self.by_processor else used.wall

    def image(self, key, make):
        if key not in self.images:
            self.images[key] = make()
        return self.images[key]

    def computes(self, least=SHORT):
        return self.image(least, lambda: self.bench.repeated("sort", least))

    def source(self, source, **numbers):
        return self.image((source, *numbers.items()), lambda: self.bench.image(source, **numbers))

    def run(self, name, *images, workers=None, quantum=None):
        options = [f"--workers={workers}"] * bool(workers) + [f"--quantum={quantum}"] * bool(quantum)
        return self.time(name, Run(("run", *options, *images)))

    def idle(self, image, workers):
        return self.used(f"one program, {workers} workers", Run(("run", f"--workers={workers}", image)))


def beside_programs(m):
    image = m.computes()
    four = m.run("four workers", *[image] * 8, workers=4)
    apart = m.time("four programs", *[Run(("run", "--workers=1", image, image))] * 4)
    return four / apart


def beside_plain(m):
    image = m.computes()
    one = m.run("one worker", *[image] * 8, workers=1)
    plain = m.time("plain", m.image("turns", lambda: m.bench.turns([image] * 8, ENOUGH)))
    return one / plain


def short_quantum(copies, workers):
    def measure(m):
        images = [m.computes()] * copies
        short = m.run(f"quantum 1000, {copies}", *images, workers=workers, quantum=1_000)
        return short / m.run(f"quantum 10000, {copies}", *images, workers=workers, quantum=10_000)

    return measure


def a_loan(pages):
    def measure(m):
        count, often, seldom = 5_000_000, 1_000, 1_000_000
        image = m.source(LOOP, pages=pages, count=count)
        many = m.run(f"quantum {often}, {pages} pages", image, workers=1, quantum=often)
        few = m.run(f"quantum {seldom}, {pages} pages", image, workers=1, quantum=seldom)
        length = LOOP_LENGTH * count
        return (many - few) / (length / often - length / seldom) / (few / length * 10_000)

    return measure


def beside_sleepers(m):
    asleep, alone = [m.source(SLEEPERS, pages=51, sleepers=it, count=10_000) for it in (7, 0)]
    return m.run("seven sleepers", asleep) / m.run("no sleepers", alone)


def a_herd(m):
    return m.run("herd", m.source(HERD, pages=51))


def a_call(workers):
    def measure(m):
        few, many = 10_000, 210_000
        times = [m.run(f"{it} calls, {workers} workers", m.source(CALLS, count=it), workers=workers) for it in (few, many)]
        return (times[1] - times[0]) / (many - few) * 1e6

    return measure


def idle_workers(m):
    image = m.computes(LONG)
    many, one = [m.idle(image, it) for it in (16, 1)]
    return (many.processor - one.processor) / many.wall


FIGURES = {
    "programs": Figure("eight programs that compute, four workers beside four separate runs", 1.25, beside_programs),
    "plain": Figure("the same, one worker beside the plain run", 1.1, beside_plain),
    "quantum": Figure("one program, a quantum of 1,000 beside 10,000", 2, short_quantum(1, None)),
    "quantum8": Figure("eight programs, four workers, a quantum of 1,000 beside 10,000", 2, short_quantum(8, 4)),
    "loan1": Figure("a loan of 1 page and the stack beside 10,000 instructions", 0.03, a_loan(1)),
    "loan16": Figure("a loan of 16 pages and the stack beside 10,000 instructions", 0.06, a_loan(16)),
    "loan51": Figure("a loan of 51 pages and the stack beside 10,000 instructions", 0.12, a_loan(51)),
    "sleepers": Figure("10,000 calls beside seven that wait, and without", 2, beside_sleepers),
    "herd": Figure("1,024 processes of 55 pages, which wait and then call", 10.7, a_herd, " s", rounds=1),
    "call": Figure("a call where nothing waits, one worker", 3, a_call(1), " us"),
    "call4": Figure("a call where nothing waits, four workers", 3, a_call(4), " us"),
    "idle": Figure("processors that 15 idle workers take", 0.05, idle_workers),
}


def in_words(values, unit):
    middle, least, most = statistics.median(values), min(values), max(values)
    return f"{middle:.3g}{unit}" + (f" ({least:.3g} to {most:.3g})" if len(values) > 1 else "")


def main():
    words = argparse.ArgumentParser(description=__doc__, formatter_class=argparse.RawDescriptionHelpFormatter)
    words.add_argument("--bench", default=f"{TOP}/crates/bench/out/bench")
    words.add_argument("--before", help="another program, measured in the same rounds")
    words.add_argument("--rounds", type=int, default=5)
    words.add_argument("--processor", action="store_true", help="compare times of processors, for a host that is busy")
    words.add_argument("--raw", help="a file to which each run's times are appended")
    words.add_argument("names", nargs="*", metavar="NAME", help=", ".join(FIGURES))
    given = words.parse_args()
    unknown = [it for it in given.names if it not in FIGURES]
    if unknown:
        words.error(f"no figure is named {unknown[0]}: there are {', '.join(FIGURES)}")
    programs = [it for it in (given.bench, given.before) if it]
    for path in programs:
        if not os.access(path, os.X_OK):
            words.error(f"there is no program at {path}: build it by ./bench, or give --bench")
    names, reached = given.names or list(FIGURES), 0
    with tempfile.TemporaryDirectory(prefix="bench-costs-") as room, contextlib.ExitStack() as files:
        raw = files.enter_context(open(given.raw, "a", encoding="ascii")) if given.raw else None
        measured = [Measures(path, label, room, raw, given.processor) for path, label in zip(programs, ("new", "before"))]
        for name in names:
            figure = FIGURES[name]
            rounds = [[figure.measure(it) for it in measured] for _ in range(figure.rounds or given.rounds)]
            values = [list(it) for it in zip(*rounds)]
            # A tenth of the time before is wanted of the herd.
            wanted = statistics.median(values[1]) / 10 if name == "herd" and given.before else figure.wanted
            is_reached = statistics.median(values[0]) <= wanted
            reached += is_reached
            before = f"; before {in_words(values[1], figure.unit)}" if given.before else ""
            result = "reached" if is_reached else "NOT reached"
            load = os.getloadavg()[0]
            print(f"{name}: {figure.what}: {in_words(values[0], figure.unit)}{before}; wanted {wanted:.3g}{figure.unit}: {result}; load {load:.1f}", flush=True)
    print(f"{reached} of {len(names)} reached")
    return 0 if reached == len(names) else 1


if __name__ == "__main__":
    sys.exit(main())

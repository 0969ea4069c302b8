#!/usr/bin/env python3
"""Runs the tests that the merge gate does not run, one part after the other.

    full-tests.py [--minutes M] [--jobs N] [--seed S] [--skip-missing] [--list] [PART..]

The parts are all of those that --list names, or the ones given. A part that takes a count is run in rounds, with more and other runs
each time, for about M minutes (5 if M is not given; with 0 it is run once, with its least count). The others take the time that
they take. N processors are used, all of them if N is not given. S begins the random choices: the first line says which it is, so
that a run can be done again.

BENCH and TEST_RUNNER name the programs. Without BENCH ./bench --build builds it, so that it is the one of the sources as they stand. Without
TEST_RUNNER it is the one that the merge gate left in crates/test_runner/out.

At the end stands a table: how many runs a part had and how many failed, its minutes, and the command of its last round, or of the one
that failed. The status is 1 if a part failed, or was not run: for want of a program, or of a tool, with the Debian package that it
needs. With --skip-missing a tool that is not there fails nothing."""
import argparse
import glob
import os
import random
import re
import shlex
import shutil
import signal
import subprocess
import sys
import tempfile
import threading
import time
from typing import NamedTuple

TOP = os.path.realpath(f"{os.path.dirname(os.path.realpath(__file__))}/..")
INTERRUPTS = (signal.SIGINT, signal.SIGTERM, signal.SIGHUP)
# The seconds between two lines of progress, and how many times as many runs as the round before a round has at most.
TELL, GROWTH = 60, 8
# A round has no end where it takes so many seconds beyond three times the minutes that there are.
PATIENCE = 900
# What a package gives: a command, or a file.
PACKAGES = {
    "chromium": "chromium",
    "chromium-driver": "chromedriver",
    "python3-selenium": "/usr/lib/python3/dist-packages/selenium/*",
    "clang": "clang",
    "gcc": "cc",
    "gcc-12-source": f"{os.environ.get('TESTS', '/usr/src/gcc-12')}/*",
    "gcc-riscv64-unknown-elf": os.environ.get("CC", "riscv64-unknown-elf-gcc"),
    "gdb-multiarch": os.environ.get("GDB", "gdb-multiarch"),
    "lld": "ld.lld",
    "llvm": "llvm-size",
    "picolibc-riscv64-unknown-elf": f"{os.environ.get('PICOLIBC', '/usr/lib/picolibc/riscv64-unknown-elf')}/*",
    "qemu-user": "qemu-riscv32",
    "the toolchain's command rt": "rt",
    "time": "/usr/bin/time",
}


class Part(NamedTuple):
    """Some tests: what they try, and the command. In its words {bench}, {test_runner}, {jobs}, {seed} and {count} stand for what is
    given, and {lanes} for the word --jobs where it is given. A part without {count} is run once. `least` is the count of the first
    round, `needs` the packages. `says` finds in the output how many runs there were, and then how many failed."""

    what: str
    command: str
    needs: tuple = ()
    least: int = 1
    says: str = ""


def refusals(what, wanted):
    """Returns the part in which the program is refused something."""
    command = f"python3 tools/refused-growths.py --bench {{bench}} --refuse {wanted} --processes {{jobs}}"
    return Part(what, command, ("gcc",), says=REFUSED)


REFUSED = r"(\d+) runs: \d+ refused, \d+ undisturbed, (\d+) wrong"
PARTS = {
    "pages": Part("links, sentences and blocks of the pages", "python3 tools/check-pages.py"),
    "readme": Part(
        "the commands of README.md in a fresh clone, in order", "python3 tools/try-readme.py", says=r"(\d+) commands, (\d+) failed",
    ),
    "texts": Part("the texts of bench page, as they stand in the code", "python3 tools/page-texts.py --check"),
    "words": Part("the words of the assembler in examples/ci/bench.vim", "python3 tools/vim-syntax.py --check"),
    "launcher": Part(
        "random words, by the launcher and by the program", "python3 tools/try-launcher.py --bench {bench} --count {count} --seed {seed}", (), 500,
        says=r"(\d+) \D+, (\d+) wrong",
    ),
    "small": Part("the cases, by the small program if it has the command", "python3 tools/try-launcher.py --bench {bench} --small {small} --count 0"),
    "mutants": Part(
        "the edits of the second tier, over the proofs that are kept", "python3 tools/mutants.py {lanes}", ("the toolchain's command rt",),
        says=r"in all +(\d+) +\d+ +(\d+) +(\d+) +(\d+) ",
    ),
    "cones": Part(
        "random histories, by --cone and by a model", "python3 tools/random-cones.py --first {seed} --lanes {jobs} {count}", (), 200
    ),
    "crashes": Part("random scripts, by crashes, replay and a model", "python3 tools/random-crashes.py {count} {seed} {jobs}", (), 50),
    "crash-lists": Part(
        "random runs, by crashes --model and by another enumeration", "python3 tools/random-crash-lists.py {count} {seed}", (), 50
    ),
    "records": Part("random programs, by exec and by replay of the record", "python3 tools/random-records.py {count} {seed} {jobs}", (), 200),
    "logs": Part("random programs, by exec --log and by steps of debug", "python3 tools/random-logs.py {count} {seed} {jobs}", (), 60),
    "logs-of-gcc": Part(
        "GCC's tests at -O1, by exec --log and by steps of debug", "python3 tools/random-logs.py --gcc {count} {seed} {jobs}",
        ("gcc-12-source", "gcc-riscv64-unknown-elf", "picolibc-riscv64-unknown-elf", "qemu-user"), 20,
    ),
    "orders": Part("random programs, by explore and by all orders", "python3 tools/random-orders.py {count} {seed} {jobs}", (), 20),
    "crash-orders": Part(
        "random programs, by crashes of all orders by each rule, and of each order", "python3 tools/random-crash-orders.py {count} {seed} {jobs}",
        (), 5,
    ),
    "many-runs": Part("each example again and again, by 1 to 16 workers", "tools/many-runs.sh {count}", (), 16),
    "killed-runs": Part("runs that are killed, and the disk after each", "tools/killed-runs.sh {count}", (), 20),
    "killed-durable-runs": Part(
        "the same with --durable, and a disk that fails", "python3 tools/killed-durable-runs.py {count} {seed}", (), 30
    ),
    "growths": Part(
        "every growth of memory refused, one in each run",
        "python3 tools/refused-growths.py --bench {bench} --test-runner {test_runner} --processes {jobs}", ("gcc",), says=REFUSED,
    ),
    "calls": refusals("every call to the host refused", "call"),
    "room": refusals("the same, for want of room", "room"),
    "closed": refusals("the same, since a pipe is closed", "closed"),
    "interrupted": refusals("every call to the host interrupted", "interrupted"),
    "bytes": refusals("every read and write moves one byte", "bytes"),
    "threads": refusals("every start of a thread refused", "thread"),
    "gdb": Part(
        "the sessions of docs/GDB.md, in gdb", "tools/gdb-sessions.sh --bench {bench}", ("gdb-multiarch", "gcc-riscv64-unknown-elf")
    ),
    "streams": Part(
        "damaged packets, sent to bench gdb",
        "python3 tools/gdb-streams.py --bench {bench} --streams {count} --seed {seed} --jobs {jobs}", ("time",), 200,
    ),
    "walks": Part(
        "pages of examples and of random scripts, walked in a browser", "env BENCH={bench} tools/try-pages.py --random {count}",
        ("chromium", "chromium-driver", "python3-selenium"), 10, says=r"(\d+) pages, (\d+) faults",
    ),
    "builds": Part(
        "programs in C by each compiler that examples/c/build.sh names", "env BENCH={bench} crates/test_runner/data/c/builds.sh",
        (
            "gcc", "gcc-riscv64-unknown-elf", "picolibc-riscv64-unknown-elf", "clang", "lld", "llvm", "qemu-user", "gdb-multiarch",
        ),
    ),
    "compilers": Part(
        "GCC's execution tests, beside qemu", "tools/torture.sh --bench {bench} --sample {count} --seed {seed} --jobs {jobs}",
        ("gcc-12-source", "gcc-riscv64-unknown-elf", "picolibc-riscv64-unknown-elf", "qemu-user"), 20,
    ),
}
# The parts that run no program.
ALONE = ("pages", "texts", "words", "mutants")


def say(text):
    print(f"full-tests: {text}", flush=True)


def is_there(package):
    found = PACKAGES[package]
    return bool(glob.glob(found) if "*" in found else shutil.which(found))


class Result:
    """What came of a part: its runs and those that failed, the seconds, and the command to run it again; or why it was not run."""

    def __init__(self, name):
        self.name, self.part, self.lacks, self.runs, self.failed, self.seconds, self.command = name, PARTS[name], "", 0, 0, 0.0, ""

    def cells(self):
        if self.lacks:
            return [self.name, "-", "-", "-", f"not run: {self.lacks}"]
        return [self.name, str(self.runs), str(self.failed), f"{self.seconds / 60:.1f}", self.command]


def tell(name, over):
    """Says each minute that a command still runs."""
    began = time.monotonic()
    while not over.wait(TELL):
        say(f"{name}: {(time.monotonic() - began) / 60:.0f} minutes gone in this round")


def kill(run):
    try:
        os.killpg(run.pid, signal.SIGKILL)
    except ProcessLookupError:
        pass


def run(name, words, environment, most=None):
    """Runs a command, of which each line is printed as it comes, for so many seconds at most. Returns its status and what it printed."""
    how = {"stdin": subprocess.DEVNULL, "stdout": subprocess.PIPE, "stderr": subprocess.STDOUT, "text": True, "errors": "replace"}
    one = subprocess.Popen(words, cwd=TOP, env={**os.environ, "PYTHONUNBUFFERED": "1", **environment}, start_new_session=True, **how)
    over, lines = threading.Event(), []
    timer = threading.Timer(most or threading.TIMEOUT_MAX, kill, (one,))
    for it in (timer, threading.Thread(target=tell, args=(name, over))):
        it.daemon = True
        it.start()
    try:
        for line in one.stdout:
            lines.append(line)
            print(f"    {line}", end="", flush=True)
        return one.wait(), "".join(lines)
    finally:
        over.set()
        timer.cancel()
        if one.poll() is None:
            # It is interrupted, and tidies up.
            one.terminate()
            one.wait()
        kill(one)


class Tests:
    def __init__(self, given, room):
        self.given, self.room, self.built = given, room, None
        bench = os.environ.get("BENCH", f"{TOP}/crates/bench/out/bench")
        test_runner = os.environ.get("TEST_RUNNER", f"{TOP}/crates/test_runner/out/test_runner")
        small = f"{TOP}/crates/bench_small/out/bench_small"
        self.programs = {"bench": os.path.abspath(bench), "small": small, "test_runner": os.path.abspath(test_runner)}

    def is_built(self):
        """Has ./bench build the whole program once."""
        if self.built is None:
            say("./bench --build builds the program, unless it is that of the sources as they stand")
            self.built = run("bench", ["./bench", "--build"], {})[0] == 0
        return self.built

    def lacks(self, name):
        """Returns the tools, or else the programs, without which a part cannot be run."""
        part = PARTS[name]
        tools = [it for it in part.needs if not is_there(it)]
        wanted = [] if tools or name in ALONE else [it for it in self.programs if it == "bench" or f"{{{it}}}" in part.command]
        if wanted and "BENCH" not in os.environ and not self.is_built():
            return tools, ["a program that ./bench builds"]
        lacking = [self.programs[it] for it in wanted if not os.access(self.programs[it], os.X_OK)]
        return tools, [f"a program at {it}, where the merge gate leaves it" for it in lacking]

    def round(self, result, count):
        """Runs a round of a part, and adds what came of it. Returns whether it was well."""
        part, given, began = result.part, self.given, time.monotonic()
        programs = {name: shlex.quote(path) for name, path in self.programs.items()}
        lanes = f"--jobs {given.jobs}" if given.jobs else ""
        words = part.command.format(count=count, seed=given.seed + result.runs, jobs=given.jobs or os.cpu_count(), lanes=lanes, **programs)
        by_name = result.name in ALONE or "{bench}" in part.command
        result.command = words if by_name else f"BENCH={programs['bench']} {words}"
        say(f"{result.name}: {result.command}")
        most = given.minutes * 180 + PATIENCE if "{count}" in part.command else None
        status, text = run(result.name, shlex.split(words), {"BENCH": self.programs["bench"], "TMPDIR": self.room}, most)
        found = re.findall(part.says, text) if part.says else []
        runs, *failed = map(int, found[-1]) if found else (count,)
        result.runs += runs
        result.failed += sum(failed) or int(status != 0)
        result.seconds += time.monotonic() - began
        if status:
            say(f"{result.name}: FAILED, {'killed: it has no end, or no memory' if status == -signal.SIGKILL else f'status {status}'}")
        return status == 0

    def run(self, result):
        """Runs a part, in rounds if it takes a count."""
        count = result.part.least
        while self.round(result, count) and "{count}" in result.part.command:
            left = self.given.minutes * 60 - result.seconds
            count = min(GROWTH * count, int(result.runs * left / result.seconds))
            if count < result.part.least:
                break


def print_table(results):
    rows = [["part", "runs", "failed", "minutes", "to run it again"], *[it.cells() for it in results]]
    for name, *numbers, command in rows:
        print(f"{name:20}" + "".join(f"{it:>9}" for it in numbers) + f"  {command}")


def run_all(given, results, room):
    """Runs the parts, and adds what came of each to the results. Returns how many were not run, and ought to have been."""
    tests, unrun = Tests(given, room), 0
    for name in given.parts:
        results.append(Result(name))
        tools, programs = tests.lacks(name)
        results[-1].lacks = f"needs {', '.join(tools + programs)}" if tools or programs else ""
        if results[-1].lacks:
            say(f"{name}: not run: {results[-1].lacks}")
            unrun += bool(programs) or not given.skip_missing
        else:
            tests.run(results[-1])
    return unrun


def interrupt(*_):
    # A second one would cut off what the first one tidies up.
    for it in INTERRUPTS:
        signal.signal(it, signal.SIG_IGN)
    raise KeyboardInterrupt


def main():
    words = argparse.ArgumentParser(description=__doc__, formatter_class=argparse.RawDescriptionHelpFormatter)
    words.add_argument("--minutes", type=float, default=5, metavar="M", help="the time of each part that takes a count")
    words.add_argument("--jobs", type=int, metavar="N", help="how many processors are used")
    words.add_argument("--seed", type=int, default=random.randrange(1, 1_000_000), metavar="S", help="where the random choices begin")
    words.add_argument("--skip-missing", action="store_true", help="a tool that is not there fails nothing")
    words.add_argument("--list", action="store_true", help="lists the parts")
    words.add_argument("parts", nargs="*", metavar="PART", help="the parts; all, if none")
    given = words.parse_args()
    given.parts = given.parts or list(PARTS)
    unknown = [it for it in given.parts if it not in PARTS]
    if unknown:
        words.error(f"{unknown[0]} is no part; --list lists them")
    if given.list:
        for name in given.parts:
            print(f"{name:20}  {PARTS[name].what}")
        return 0
    say(f"seed {given.seed}")
    results, room = [], tempfile.mkdtemp(prefix="full-tests-")
    try:
        unrun = run_all(given, results, room)
    except KeyboardInterrupt:
        say("interrupted")
        return 130
    finally:
        shutil.rmtree(room, ignore_errors=True)
        print_table(results)
    return int(unrun > 0 or any(it.failed for it in results))


if __name__ == "__main__":
    for each in INTERRUPTS:
        signal.signal(each, interrupt)
    sys.exit(main())

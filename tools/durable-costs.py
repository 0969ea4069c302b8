#!/usr/bin/env python3
"""Says what a durable run costs beside one that keeps its disk at the end.

    durable-costs.py [RUNS]

`examples/counts.s` makes 1,001 changes, each but the first with a line of output after it. It is run with --disk alone and with
--durable too, in turn, each on a disk of zeros that is there (11 times where no number is given). The last line has the medians of
the times from the beginning to the last byte of output, and to the end, as a durable run's over the other's.

BENCH names the program, or else it is ./bench of this repository. FOLDER names the folder of the disks, so that one can be chosen
on the disk that is meant."""
import os
import statistics
import subprocess
import sys
import tempfile
import time

TOP = os.path.realpath(f"{os.path.dirname(os.path.realpath(__file__))}/..")
BENCH = os.environ.get("BENCH", f"{TOP}/bench")
SIZE = 2_097_152
LINES = 1000


def run(folder, options):
    """Returns how long a run takes to the last of its output, and to its end."""
    with open(f"{folder}/disk", "wb") as file:
        file.write(bytes(SIZE))
        os.fsync(file.fileno())
    begin = time.monotonic()
    with subprocess.Popen(
        [BENCH, "run", "--disk", "disk", *options, "counts"], cwd=folder, stdout=subprocess.PIPE, stderr=subprocess.DEVNULL
    ) as it:
        printed = it.stdout.read()
        shown = time.monotonic() - begin
    whole = time.monotonic() - begin
    if it.returncode != 0 or printed.count(b"\n") != LINES:
        sys.exit(f"durable-costs: status {it.returncode}, {printed[-20:]!r}")
    return shown, whole


def main():
    runs = int(sys.argv[1]) if len(sys.argv) > 1 else 11
    with tempfile.TemporaryDirectory(prefix="bench-costs-", dir=os.environ.get("FOLDER")) as folder:
        subprocess.run([BENCH, "asm", f"{TOP}/examples/counts.s", "counts"], cwd=folder, stdout=subprocess.DEVNULL, check=True)
        times = {options: [] for options in ((), ("--durable",))}
        for _ in range(runs):
            for options, found in times.items():
                found.append(run(folder, options))
    plain, durable = ([statistics.median(it) for it in zip(*found)] for found in times.values())
    shown, whole = (1000 * one / other for one, other in zip(durable, plain))
    print(f"{LINES} changes with output after each, {runs} runs: with --durable {shown:.0f} thousandths to the last output, {whole:.0f} to the end")
    print(f"in milliseconds: {1000 * plain[0]:.0f} and {1000 * plain[1]:.0f}; with --durable {1000 * durable[0]:.0f} and {1000 * durable[1]:.0f}")


main()

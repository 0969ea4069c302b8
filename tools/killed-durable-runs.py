#!/usr/bin/env python3
"""Kills durable runs, and looks at what the disk's file then holds.

    killed-durable-runs.py [RUNS] [SEED]

A program counts in a file, and prints each number once it has written it. It is run with --durable again and again (300 times where
no number is given), and each run is killed at a random moment. The runs are of three kinds: one program; two programs, each with a
file; and one that writes each number to a new file and renames it. After each run every number that was printed has to be in the
file, whole, and the run has to have gone on from the number of the run before. This script reads the disk's bytes by itself.

Then the host refuses writes: all past a limit of the file's length, which lies a byte further in each run; and, where a file system
in memory can be mounted, all past the room of a small one. Each time the run has to end with status 4, and the numbers that it
printed have to be in the file.

BENCH names the program, or else it is ./bench of this repository. The last line says what was done; at the first fault the script
says which, and ends with status 1."""
import os
import random
import resource
import signal
import struct
import subprocess
import sys
import tempfile
import time

TOP = os.path.realpath(f"{os.path.dirname(os.path.realpath(__file__))}/..")
BENCH = os.environ.get("BENCH", f"{TOP}/bench")
SIZE = 2_097_152
HALVES = (64, 1_048_576)
KINDS = ("one program", "two programs", "a program that renames")
# The number is written to this file in place of the file itself, which is then renamed.
RENAMES = """
    la   a0, new
    li   a1, 9
    li   a2, 2           # mode 2: make the file
    li   a7, 4           # open
    ecall
    mv   s0, a0
    li   a7, 2           # write
    call line_call
    mv   a0, s0
    li   a7, 5           # close
    ecall
    la   a0, new
    li   a1, 9
    li   a2, 5           # to the five bytes after these
    li   a7, 13          # rename
    ecall
"""


class Fault(Exception):
    """What came out otherwise."""


# The disk, read by what docs/DISK.md says.


def changes_in(body):
    """Returns the changes of a record, each a tuple."""
    at = 0

    def take(count):
        nonlocal at
        at += count
        if at > len(body):
            raise Fault("a record is cut short")
        return body[at - count : at]

    found = []
    while at < len(body):
        kind = take(1)[0]
        if kind == 1:
            found.append((kind, take(take(1)[0])))
        elif kind == 2:
            file, offset, count = struct.unpack("<HIH", take(8))
            found.append((kind, file, offset, take(count)))
        elif kind in (3, 4):
            found.append((kind, *struct.unpack("<H", take(2))))
        elif kind == 5:
            file = struct.unpack("<H", take(2))[0]
            found.append((kind, file, take(take(1)[0])))
        else:
            raise Fault(f"a change of kind {kind}")
    return found


def change(files, it):
    """Does a change to the files, a list of pairs of a name and bytes."""
    kind = it[0]
    if kind == 1:
        files.append([it[1], b""])
    elif kind == 2:
        _, file, offset, data = it
        old = files[file][1].ljust(offset, b"\0")
        files[file][1] = old[:offset] + data + old[offset + len(data) :]
    elif kind == 3:
        files[it[1]][1] = b""
    elif kind == 4:
        del files[it[1]]
    else:
        _, file, name = it
        renamed = files[file]
        files[:] = [other for other in files if other is renamed or other[0] != name]
        renamed[0] = name


def files_on(disk):
    """Returns the files on a disk, by their names."""
    if len(disk) != SIZE:
        raise Fault(f"the disk's file has {len(disk)} bytes")
    files, gate = [], HALVES[disk[0] & 1]
    while disk[gate] == 1:
        length = struct.unpack_from("<I", disk, gate + 1)[0]
        for it in changes_in(disk[gate + 5 : gate + 5 + length]):
            change(files, it)
        gate += 5 + length
    return {bytes(name): data for name, data in files}


def number_on(path, name):
    """Returns the number in a file on the disk at this path; 0 where there is none."""
    if not os.path.exists(path):
        return 0
    with open(path, "rb") as file:
        data = files_on(file.read()).get(name, b"")
    if not data:
        return 0
    if len(data) != 7 or data[6:] != b"\n" or not data[:6].isdigit():
        raise Fault(f"in the file stands {data!r}")
    return int(data)


# The runs.


def images(folder):
    """Assembles the programs that count."""
    with open(f"{TOP}/examples/counts.s", encoding="utf-8") as file:
        source = file.read()
    body = source[source.index("    call count\n") + len("    call count\n") : source.index("    li   a0, 1           # the terminal")]
    sources = {
        "counts": source,
        "others": source.replace('"count"', '"other"'),
        "renames": source.replace(body, RENAMES).replace('name:   .ascii "count"', 'new:    .ascii "count.new"\nname:   .ascii "count"'),
    }
    for name, text in sources.items():
        with open(f"{folder}/{name}.s", "w", encoding="utf-8") as file:
            file.write(text)
        subprocess.run([BENCH, "asm", f"{name}.s", name], cwd=folder, stdout=subprocess.DEVNULL, check=True)


def numbers_in(printed):
    """Returns the numbers that were printed whole."""
    return [int(line) for line in printed.split(b"\n")[:-1]]


def check(kind, before, printed, after):
    """Compares what a run printed with the number that it began with and the one that the file holds."""
    if not printed:
        if after < before:
            raise Fault(f"{kind}: the file held {before}, and now {after}")
        return
    if printed != list(range(before + 1, before + 1 + len(printed))):
        raise Fault(f"{kind}: from {before} on were printed {printed[:3]} .. {printed[-3:]}")
    if after < printed[-1]:
        raise Fault(f"{kind}: {printed[-1]} was printed, and the file holds {after}")


def command(kind, disk, terminal):
    """Returns the words of a run, and the name of the file whose numbers it prints."""
    words = [BENCH, "run", "--durable", "--disk", disk, "--term", str(terminal)]
    if kind == 1:
        return [*words, "counts", "others"], (b"count", b"other")[terminal]
    return [*words, ("counts", None, "renames")[kind]], b"count"


def killed(folder, rng, kind, longest):
    """Kills a run at a random moment, and checks it. Returns how many numbers it printed."""
    disk, terminal = f"disk{kind}", rng.randrange(2) if kind == 1 else 0
    words, name = command(kind, disk, terminal)
    before = number_on(f"{folder}/{disk}", name)
    run = subprocess.Popen(words, cwd=folder, stdout=subprocess.PIPE, stderr=subprocess.DEVNULL, bufsize=0)
    printed, end = b"", time.monotonic() + rng.uniform(0, longest)
    os.set_blocking(run.stdout.fileno(), False)
    while time.monotonic() < end and run.poll() is None:
        printed += run.stdout.read(1 << 20) or b""
        time.sleep(0.0002)
    run.kill()
    run.wait()
    printed += run.stdout.read(1 << 20) or b""
    run.stdout.close()
    numbers = numbers_in(printed)
    check(KINDS[kind], before, numbers, number_on(f"{folder}/{disk}", name))
    return len(numbers)


def kill_runs(folder, rng, runs):
    """Kills runs of each kind in turn. Returns how many printed something, and were killed before their end."""
    begin = time.monotonic()
    subprocess.run(command(0, "first", 0)[0], cwd=folder, stdout=subprocess.DEVNULL, stderr=subprocess.DEVNULL, check=True)
    longest = 1.2 * (time.monotonic() - begin)
    counts = [killed(folder, rng, number % 3, longest) for number in range(runs)]
    return sum(0 < count < 1000 for count in counts), sum(count == 1000 for count in counts)


def limited(limit):
    """Has the host refuse each write past this length of a file."""
    signal.signal(signal.SIGXFSZ, signal.SIG_IGN)
    resource.setrlimit(resource.RLIMIT_FSIZE, (limit, limit))


def refused(folder, path, limit):
    """Checks a run some of whose writes the host refuses. Returns how many numbers it printed; None where none was refused."""
    words, name = command(0, path, 0)
    # (Python restores the signal, if it is not told otherwise)
    run = subprocess.run(
        words, cwd=folder, stdout=subprocess.PIPE, stderr=subprocess.PIPE, restore_signals=False,
        preexec_fn=None if limit is None else lambda: limited(limit),
    )
    where = f"a limit of {limit} bytes" if limit is not None else "a full file system"
    printed, said = numbers_in(run.stdout), run.stderr.decode()
    check(where, 0, printed, number_on(os.path.join(folder, path), name))
    if run.returncode == 0:
        return None
    if run.returncode != 4 or said != "process 1 held\nbench: disk failed\n":
        raise Fault(f"{where}: status {run.returncode}, {said!r}")
    return len(printed)


def make_zeros(path):
    with open(path, "wb") as file:
        file.write(bytes(SIZE))


def refuse_writes(folder):
    """Has the host refuse one write after the other: the limit is a byte further each time at first, and then further apart."""
    counts, limit = [], 0
    while True:
        make_zeros(f"{folder}/limited")
        count = refused(folder, "limited", limit)
        if count is None:
            return len(counts)
        counts.append(count)
        limit += 1 if limit < 200 else 997


def fill_up(folder):
    """Runs on a file system without room. Returns what was done."""
    room = f"{folder}/room"
    os.mkdir(room)
    mounted = subprocess.run(["mount", "-t", "tmpfs", "-o", "size=8k", "bench", room], stdout=subprocess.DEVNULL, stderr=subprocess.DEVNULL)
    if mounted.returncode != 0:
        return "no file system was mounted"
    try:
        run = subprocess.run(command(0, "room/disk", 0)[0], cwd=folder, stdout=subprocess.PIPE, stderr=subprocess.PIPE)
        if run.returncode != 6 or run.stdout or os.path.exists(f"{room}/disk"):
            raise Fault(f"a new disk on a full file system: status {run.returncode}")
        # A file without its bytes takes room as they are written.
        with open(f"{room}/disk", "wb") as file:
            file.truncate(SIZE)
        if refused(folder, "room/disk", None) is None:
            raise Fault("a full file system: nothing was refused")
        return "a full file system"
    finally:
        subprocess.run(["umount", room], check=True)


def main():
    runs = int(sys.argv[1]) if len(sys.argv) > 1 else 300
    rng = random.Random(int(sys.argv[2]) if len(sys.argv) > 2 else 1)
    with tempfile.TemporaryDirectory(prefix="bench-killed-") as folder:
        try:
            images(folder)
            midway, whole = kill_runs(folder, rng, runs)
            limits = refuse_writes(folder)
            room = fill_up(folder)
        except Fault as fault:
            print(fault, file=sys.stderr)
            return 1
    print(f"{runs} durable runs: {midway} were killed while they printed, {whole} after that; {limits} limits of a file; {room}")
    return 0


sys.exit(main())

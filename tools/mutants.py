#!/usr/bin/env python3
"""Tries the second tier of edits: the mutants `crates/NAME/mutants/*.edit`, each of which the prover has to refuse.

    mutants.py [--all] [--changed [COMMIT]] [--jobs N] [NAME..]

The merge gate tries the edits of `must-fail/` alone. So this makes a copy of the crates named, or of all that have mutants, and of
those below them, in which the mutants stand in `must-fail/`, and runs `rt ci` there. Proofs that the gate, the launcher or an earlier
run kept on this machine are taken, and what this run settles is kept: a second run of the same tries nothing.

--changed takes the crates that differ from a commit: from where HEAD left origin/main, or else from the commit before HEAD. --all tries
the gate's edits too. With --jobs there are N lanes, whatever the memory; without it as many as there are processors and memory for.

Lines tell of the work as it goes on. What rt says of an edit comes at its end, then a table. Its minutes are about those of processors
that the checks of the edits took. The status is 1 where an edit is not refused, is bad (it counts for nothing), or was not tried."""
import argparse
import os
import re
import shutil
import signal
import subprocess
import sys
import tempfile
import threading
import time
from collections import Counter

sys.dont_write_bytecode = True

from crate_copies import GATE, MUTANTS, TOP, copy_crates, crates_below, lines_of_crates
from lanes import lanes

INTERRUPTS = (signal.SIGINT, signal.SIGTERM, signal.SIGHUP)
# What rt says of an edit, and by which words it begins.
OF_EDIT = re.compile(r"rt: must-fail (\w+)/(\S+): (refused|NOT REFUSED|BAD EDIT|NOT TRIED)")
# A file in the folder that is no edit.
NO_EDIT = re.compile(rf"rt: crates/(\w+)/{GATE}/\S+: BAD EDIT")
COLUMNS = ("edits", "refused", "not refused", "bad", "not tried")
# Of a process's file `stat`, from its third field on: its parent, the session, the processor time of the process and of those that it
# forked, its start.
PARENT, SESSION, TIMES, START = 1, 3, slice(11, 15), 19
TICK = os.sysconf("SC_CLK_TCK")
# The seconds between two looks at the checks, and between two lines of progress.
LOOK, TELL = 0.5, 60


def say(text):
    print(f"mutants: {text}", flush=True)


def git(*words):
    """Returns the lines that git prints, or None where it fails."""
    ran = subprocess.run(["git", *words], cwd=TOP, stdout=subprocess.PIPE, stderr=subprocess.DEVNULL, text=True)
    return ran.stdout.splitlines() if ran.returncode == 0 else None


def changed_since(commit):
    """Returns the crates of which a file differs from a commit, or is new."""
    found = [commit] if commit else git("merge-base", "HEAD", "origin/main") or ["HEAD~1"]
    changed, new = git("diff", "--name-only", found[0], "--", "crates"), git("ls-files", "-o", "--exclude-standard", "--", "crates")
    if changed is None:
        sys.exit(f"mutants: git knows no commit {found[0]}")
    return {path.split("/")[1] for path in [*changed, *new]}


def edits_in(name, folder):
    at = f"{TOP}/crates/{name}/{folder}"
    return [it for it in os.listdir(at) if it.endswith(".edit")] if os.path.isdir(at) else []


def processes_of(session):
    """Returns the processes of a session: the number of each, and the fields of its file `stat` from the third on."""
    for pid in filter(str.isdigit, os.listdir("/proc")):
        try:
            with open(f"/proc/{pid}/stat", encoding="utf-8", errors="replace") as file:
                fields = file.read().rpartition(")")[2].split()
        except OSError:
            continue
        if int(fields[SESSION]) == session:
            yield pid, fields


class Checks(threading.Thread):
    """Looks at the checks of edits while rt runs, of which it says nothing until its end."""

    def __init__(self, session, edits):
        super().__init__(daemon=True)
        self.session, self.edits, self.began = session, edits, time.monotonic()
        # By a check's process and its start: its crate, and its processor seconds so far.
        self.seen, self.running, self.over = {}, set(), threading.Event()

    def look(self):
        running = set()
        for pid, fields in processes_of(self.session):
            try:
                folder = os.readlink(f"/proc/{pid}/cwd")
                # (what a check forked is no other check)
                if "/rt-edit-" not in folder or os.readlink(f"/proc/{fields[PARENT]}/cwd") == folder:
                    continue
                with open(f"/proc/{pid}/cmdline", encoding="utf-8", errors="replace") as file:
                    words = file.read().split("\0")
                name = words[words.index("--crate-name") + 1]
                if name not in self.edits:
                    continue
            except (OSError, ValueError):
                continue
            process = pid, fields[START]
            running.add(process)
            self.seen[process] = name, sum(int(it) for it in fields[TIMES]) / TICK
        self.running = running

    def tried(self):
        """Returns about how many edits were tried. Of several edits of a crate the first check is of the crate as it stands."""
        ended = Counter(name for process, (name, _) in self.seen.items() if process not in self.running)
        return sum(min(count if self.edits[name] == 1 else count - 1, self.edits[name]) for name, count in ended.items())

    def run(self):
        told = self.began
        while not self.over.wait(LOOK):
            self.look()
            if time.monotonic() - told >= TELL:
                told = time.monotonic()
                now = sorted({self.seen[it][0] for it in self.running})
                minutes = (told - self.began) / 60
                say(f"{minutes:.0f} minutes gone, about {self.tried()} edits tried; edits on trial now: {', '.join(now) or 'none'}")

    def minutes(self, name):
        return sum(seconds for of, seconds in self.seen.values() if of == name) / 60


def end(run):
    """Ends rt, and waits until its checks have ended, which they do by themselves."""
    if run.poll() is None:
        os.killpg(run.pid, signal.SIGTERM)
    run.wait()
    run.stdout.close()
    for _ in range(20):
        if not any(processes_of(run.pid)):
            return
        time.sleep(LOOK)


def lines_told(lines):
    """Gives the lines of rt that say something new, and what a check printed where it failed."""
    block = []
    for line in lines:
        if line.startswith("== "):
            block = []
        elif not line.startswith("rt: "):
            block.append(line)
        elif " is kept: " not in line:
            if "NOT PROVED" in line or "FAILED" in line:
                yield from block
            yield line
            block = []


def try_edits(room, edits, jobs):
    """Runs rt in the copy. Returns its status, how often it said what of each crate, and the checks that it made."""
    # What it leaves where it is interrupted is then in the folder that is removed.
    where = {**os.environ, "TMPDIR": f"{room}/tmp", "RT_JOBS": str(jobs or lanes())}
    run = subprocess.Popen(
        ["rt", "ci"], cwd=f"{room}/copy", env=where, stdin=subprocess.DEVNULL, stdout=subprocess.PIPE, stderr=subprocess.STDOUT, text=True,
        errors="replace", start_new_session=True,
    )
    checks, said = Checks(run.pid, {name: len(it) for name, it in edits.items()}), {name: Counter() for name in edits}
    checks.start()
    try:
        for line in lines_told(run.stdout):
            edit, other = OF_EDIT.match(line), NO_EDIT.match(line)
            if edit:
                said[edit[1]][edit[3]] += 1
            elif other:
                said[other[1]]["BAD EDIT"] += 1
            if not edit or edit[3] != "refused":
                print(line.rstrip("\n"), flush=True)
        return run.wait(), said, checks
    finally:
        checks.over.set()
        end(run)


def row(name, edits, said, minutes):
    missed, bad = said["NOT REFUSED"], said["BAD EDIT"]
    untried = max(len(edits) - said["refused"] - missed - bad, 0)
    return [name, len(edits), said["refused"], missed, bad, untried, minutes]


def print_table(rows):
    print(f"\n{'crate':18}" + "".join(f"{it:>13}" for it in COLUMNS) + f"{'minutes':>10}")
    for name, *counts, minutes in rows:
        print(f"{name:18}" + "".join(f"{it:>13}" for it in counts) + f"{minutes:>10.1f}")


def chosen(given):
    """Returns the edits of each crate that is tried, and the folders that they stand in."""
    folders = [MUTANTS, *([GATE] if given.all else [])]
    known = lines_of_crates()[0]
    unknown = [it for it in given.names if it not in known]
    if unknown:
        sys.exit(f"mutants: {unknown[0]} is no crate of crates.txt")
    names = given.names or known
    if given.changed is not None:
        changed = changed_since(given.changed)
        names = [it for it in names if it in changed]
    edits = {name: [it for folder in folders for it in edits_in(name, folder)] for name in names}
    return {name: it for name, it in edits.items() if it}, folders


def main():
    words = argparse.ArgumentParser(description=__doc__, formatter_class=argparse.RawDescriptionHelpFormatter)
    words.add_argument("--all", action="store_true", help=f"the edits of {GATE}/ too")
    words.add_argument("--changed", nargs="?", const="", metavar="COMMIT", help="the crates that differ from a commit")
    words.add_argument("--jobs", type=int, metavar="N", help="how many lanes rt has")
    words.add_argument("names", nargs="*", metavar="NAME", help="the crates; all that have such edits, if none")
    given = words.parse_args()
    edits, folders = chosen(given)
    if not edits:
        say("there is no edit to try" if given.changed is None else "no crate that has such edits differs from the commit")
        return 0
    if not shutil.which("rt"):
        sys.exit("mutants: the toolchain's command rt is not on the path")
    room = tempfile.mkdtemp(prefix="mutants-")
    try:
        # (a program that rt runs as nobody has to come through)
        os.chmod(room, 0o711)
        os.mkdir(f"{room}/tmp", 0o711)
        in_copy = crates_below(edits)
        copy_crates(in_copy, f"{room}/copy", {name: [it for it in folders if edits_in(name, it)] for name in edits})
        say(f"{sum(map(len, edits.values()))} edits of {len(edits)} crates, over {len(in_copy)} crates in all")
        status, said, checks = try_edits(room, edits, given.jobs)
    finally:
        shutil.rmtree(room, ignore_errors=True)
    rows = [row(name, it, said[name], checks.minutes(name)) for name, it in edits.items()]
    sums = ["in all", *(sum(it) for it in list(zip(*rows))[1:])]
    print_table([*rows, sums])
    return int(status != 0 or sums[2] != sums[1])


def interrupt(*_):
    # A second one would cut off what the first one tidies up.
    for it in INTERRUPTS:
        signal.signal(it, signal.SIG_IGN)
    raise KeyboardInterrupt


if __name__ == "__main__":
    for each in INTERRUPTS:
        signal.signal(each, interrupt)
    try:
        sys.exit(main())
    except KeyboardInterrupt:
        say("interrupted; the copy is removed, and what was settled is kept")
        sys.exit(130)
    except OSError as why:
        sys.exit(f"mutants: {why}")

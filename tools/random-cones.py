#!/usr/bin/env python3
"""Compares `bench replay --cone N SCRIPT` with a computation of its own, on random histories.

    BENCH=PROGRAM random-cones.py [--first SEED] [--cones K] [--lanes L] COUNT

A history is a random script: one to three programs of random calls, and random lines that run them, commit, fail and crash. It is
drawn by its seed, so that each seed is one history. A model of the machine, of the calls and of the disk stands in `cone_model`
beside this file, and reads nothing of the product. It says what each line prints, which carriers each event reads and writes
(CALLS.md, "What an output waits for"), and by them which events each one rests on. For each history and K of its events, N being
the number of one, three runs are compared:

- the whole script by `replay`, drained at its end, with what terminals show and what traces have: with the model, line by line;
- `replay --cone N`: with the model's cone, its changes, the answers of the whole run, and what event N told in it;
- the lines that this printed, after the same set-up and up to the same last boot, by `replay`: each answer with that of the whole
  run; and the last reply to N's process and what terminals show with what `--cone` printed of N and with the whole run.

And once for each history, before it is drained: the visible events, which rest on committed changes alone, are run by themselves.
What a terminal shows has to be a beginning of what it shows then. A process that is there has to have the same trace, and the
committed files have to be the same.

Numbers that are of no event of a process have to be refused. The last line says what was compared. At the first difference the
script that has it is printed, and the status is 1.
"""
import argparse
import multiprocessing
import os
import subprocess
import sys
import tempfile
from collections import Counter

sys.dont_write_bytecode = True

from cone_model.histories import History
from cone_model.kernel import WAITS


class Differs(Exception):
    pass


class Bench:
    def __init__(self, room):
        self.program = os.environ["BENCH"]
        self.script = f"{tempfile.mkdtemp(dir=room)}/script"

    def run(self, lines, *words):
        """The lines that the program prints of a script, its status, and what it says."""
        with open(self.script, "w") as file:
            file.write("\n".join(lines) + "\n")
        ran = subprocess.run([self.program, "replay", *words, self.script], capture_output=True, text=True, timeout=120)
        return ran.stdout.splitlines(), ran.returncode, ran.stderr.strip()

    def printed(self, lines, *words):
        out, status, said = self.run(lines, *words)
        if status:
            raise Differs(f"status {status}, {said}")
        return out


def compare(what, got, wanted):
    if got != wanted:
        place = next((k for k, (a, b) in enumerate(zip(got, wanted)) if a != b), min(len(got), len(wanted)))
        some, other = got[place:place + 3], wanted[place:place + 3]
        raise Differs(f"{what}, at line {place + 1} of {len(got)} and {len(wanted)}:\n  {some}\n  wanted {other}")


def views(run):
    """The lines that show all that may be seen, and what they print."""
    lines = [f"shown {t}" for t in range(8)] + [f"trace {pid}" for pid in run.kernel.processes]
    printed = [run.shown(t) for t in range(8)] + [line for pid in run.kernel.processes for line in run.trace(pid)]
    return lines, printed


def cone_lines(run, number):
    """What `--cone` has to print, by the model of the whole run."""
    cone, last = run.cone(number), run.events[number - 1]
    wanted = [f"cone {len(cone)} events {sum(run.events[k].change is not None for k in cone)} changes"]
    for k in cone:
        wanted += [run.events[k].line, run.events[k].answer]
    if last.reply:
        wanted.append(f"reply {last.reply.text()}")
    if last.output:
        wanted.append(f"output {last.output[0]} {last.output[1].hex()}")
    if last.status is not None:
        wanted.append(f"ended {last.status}")
    return wanted


def replies_in(lines, pid):
    """The lines of a trace among what was printed."""
    place = next(k for k, line in enumerate(lines) if line.startswith(f"trace {pid} "))
    return lines[place + 1:place + 1 + int(lines[place].split()[2])]


def shown_in(lines, terminal):
    text = next(line for line in lines if line.startswith(f"shown {terminal} ")).split()[2]
    return "" if text == "-" else text


def compare_alone(bench, history, number, printed, whole):
    """The cone's lines as a script of their own, beside what `--cone` printed of them and beside the whole run."""
    run, last = history.run, history.run.events[number - 1]
    count = int(printed[0].split()[1])
    lines, answers, told = printed[1:1 + 2 * count:2], printed[2:1 + 2 * count:2], printed[1 + 2 * count:]
    before = history.before_run()
    asked = ["drain"] + [f"shown {t}" for t in range(8)] + [f"trace {last.pid}"]
    out = bench.printed(history.setup + before + lines + asked)[len(before):]
    compare(f"the cone of {number} by its lines", out[:count], answers)
    seen = out[count:]
    told = {line.split(" ", 1)[0]: line.split(" ", 1)[1] for line in told}
    if last.reply:
        compare(f"the reply of {number} alone", replies_in(seen, last.pid)[-1:], [told["reply"]])
    if last.output:
        terminal, content = last.output
        if not shown_in(seen, terminal).endswith(content.hex()) or told["output"] != f"{terminal} {content.hex()}":
            raise Differs(f"the output of {number} alone: {seen}")
    if not run.failed:
        compare_whole(run, number, told, whole)


def compare_whole(run, number, told, whole):
    """What event N told in the whole run, which was drained."""
    last, before = run.events[number - 1], run.events[:number - 1]
    if last.reply:
        place = [event for event, _ in run.told(last.pid)].index(number - 1)
        compare(f"the reply of {number} in the whole run", replies_in(whole, last.pid)[place:place + 1], [told["reply"]])
    if last.output:
        terminal, content = last.output
        begin = 2 * sum(len(done.output[1]) for done in before if done.output and done.output[0] == terminal)
        shown = shown_in(whole, terminal)[begin:begin + 2 * len(content)]
        compare(f"the output of {number} in the whole run", [f"{terminal} {shown}"], [told["output"]])


def traces(lines):
    """The traces among what was printed, by their processes."""
    pids = [int(line.split()[1]) for line in lines if line.startswith("trace ")]
    return {pid: replies_in(lines, pid) for pid in pids}


def compare_visible(bench, history):
    """The visible events by themselves, beside the history as it is now."""
    run = history.run
    lines = [done.line for k, done in enumerate(run.events) if done.pid is not None and run.is_durable(k)]
    asked, seen = views(run)
    alone = bench.printed(history.setup + history.before_run() + lines + ["drain"] + asked + ["crash -", "files"])
    alone = alone[len(history.before_run()) + len(lines):]
    for terminal in range(8):
        if not shown_in(alone, terminal).startswith(shown_in(seen, terminal)):
            raise Differs(f"terminal {terminal} shows what the visible events do not give")
    there = traces(alone)
    compare("the traces of the visible events", [traces(seen)[pid] for pid in there], list(there.values()))
    files = run.crash(b"").files()
    compare("the files of the visible events", alone[-len(files):], files)
    return len(lines)


def compare_history(bench, seed, cones):
    history = History(seed)
    visible = compare_visible(bench, history)
    crashes = sum(line.startswith("crash") for line in history.lines)
    counts = Counter(histories=1, crashes=crashes, failures=bool(history.run.failed), visible=visible)
    length = len(history.run.events)
    drained = history.run.drain()
    lines, seen = views(history.run)
    whole = bench.printed(history.setup + history.lines + ["drain"] + lines)
    compare("the whole run", whole, history.printed + [drained] + seen)
    whole = whole[len(history.printed):]
    for _ in range(cones):
        number = history.random_number(length)
        script = history.setup + history.lines
        if history.run.cone(number) is None:
            ran = bench.run(script, "--cone", str(number))
            compare(f"--cone {number}", list(ran), [[], 2, f"bench: event refused: {number}"])
            counts["refused"] += 1
            continue
        printed = bench.printed(script, "--cone", str(number))
        compare(f"--cone {number}", printed, cone_lines(history.run, number))
        compare_alone(bench, history, number, printed, whole)
        last = history.run.events[number - 1]
        counts.update(cones=1, events=length, told=bool(last.reply), outputs=bool(last.output), ended=last.status is not None,
                      waiting=last.answer == WAITS, images=bool(last.reply and last.reply.image is not None),
                      smaller=len(history.run.cone(number)) < sum(done.pid is not None for done in history.run.events[:number]))
    return counts


def compare_histories(task):
    first, count, cones, room = task
    bench, counts = Bench(room), Counter()
    for seed in range(first, first + count):
        try:
            counts += compare_history(bench, seed, cones)
        except Differs as why:
            history = History(seed)
            return counts, f"seed {seed}: {why}\n" + "\n".join(history.setup + history.lines)
    return counts, None


def main():
    words = argparse.ArgumentParser(description=__doc__, formatter_class=argparse.RawDescriptionHelpFormatter)
    words.add_argument("count", type=int, metavar="COUNT", help="how many histories")
    words.add_argument("--first", type=int, default=0, metavar="SEED", help="the seed of the first, 0 without it")
    words.add_argument("--cones", type=int, default=2, metavar="K", help="how many events of each, 2 without it")
    words.add_argument("--lanes", type=int, default=1, metavar="L", help="how many side by side, 1 without it")
    given = words.parse_args()
    step = 20
    counts = Counter()
    with tempfile.TemporaryDirectory(prefix="cones-", dir="/dev/shm" if os.path.isdir("/dev/shm") else None) as room:
        tasks = [(given.first + k, min(step, given.count - k), given.cones, room) for k in range(0, given.count, step)]
        with multiprocessing.Pool(given.lanes) as pool:
            for some, fault in pool.imap_unordered(compare_histories, tasks):
                counts += some
                if fault:
                    pool.terminate()
                    print(fault)
                    sys.exit(1)
    print("agree: " + ", ".join(f"{count} {what}" for what, count in counts.items()))


if __name__ == "__main__":
    main()

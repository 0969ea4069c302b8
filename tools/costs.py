#!/usr/bin/env python3
"""Measures what things cost in bench, and prints each as a number of instructions that a program could have run in that time.

    costs.py [--bench PROGRAM] [--rounds N] [--page] [NAME..]

The unit is an instruction of the loop: the mean of nine programs in C, whose images stand in crates/test_runner/data/c. Each other
cost is the difference of two runs of one program, of which one does the thing oftener. Each round (7 if N is not given) measures the
unit and all costs once. A cost is the median of the rounds, and in brackets stand the least and the greatest. Times are those of the
processors, of all threads of a run together. So the numbers may be compared with one another, also on a busy host; they are no
seconds. Runs have one worker. Bytes are what the memory of a run grows by. NAME names some of the costs alone. With --page the lines
are rows of the table in docs/COSTS.md."""
import argparse
import os
import statistics
import sys
import tempfile

sys.dont_write_bytecode = True

from measures import AGAIN, CALLS, EXIT, LENGTHS, LOOP, LOOP_LENGTH, PIPE, PLACE, SLEEPERS, TOP, TOUCH, Bench, Run

# The limits between which the programs in C are timed.
FEW, MANY = 4_000_000, 40_000_000
# How often a loop goes round in the shorter and in the longer of two runs, and more instructions than it has.
LOOPS = 500_000, 5_500_000
ENOUGH = 4_294_967_295

WRITES = "_start:" + TOUCH + """
        li   s0,{count}
again:  li   a0,1               # the terminal
        mv   a1,s2
        li   a2,{bytes}
        li   a7,2               # write
        ecall
""" + AGAIN + EXIT + PLACE
# Writes to a pipe that nobody can read: the kernel takes the bytes, and refuses.
REFUSED = "_start:" + TOUCH + PIPE + """
        lw   a0,0(s2)
        li   a7,5               # close
        ecall
        li   s0,{count}
again:  lw   a0,4(s2)
        mv   a1,s2
        li   a2,{bytes}
        li   a7,2               # write
        ecall
""" + AGAIN + EXIT + PLACE
PIPED = "_start:" + TOUCH + PIPE + """
        li   s0,{count}
again:  lw   a0,4(s2)
        addi a1,s2,8
        li   a2,{bytes}
        li   a7,2               # write
        ecall
        lw   a0,0(s2)
        addi a1,s2,8
        li   a2,{bytes}
        li   a7,3               # read
        ecall
""" + AGAIN + EXIT + PLACE
OPEN = """
        sb   t0,0(s2)
        mv   a0,s2
        li   a1,1
        li   a2,2
        li   a7,4               # open
        ecall
        mv   s3,a0
"""
# Goes to the beginning of a file again and again, and then writes a byte there, or goes there once more.
CHANGES = "_start:" + TOUCH + """
        li   t0,102
""" + OPEN + """
        li   s0,{count}
again:  mv   a0,s3
        li   a1,0
        li   a7,10              # seek
        ecall
        mv   a0,s3
        mv   a1,{what}
        li   a2,1
        li   a7,{call}
        ecall
""" + AGAIN + EXIT + PLACE
# Calls, and then forks children that end at once, and collects each.
FORKS = "_start:" + TOUCH + """
        li   s0,{calls}
first:  li   a7,9               # getpid
        ecall
        addi s0,s0,-1
        bnez s0,first
        li   s0,{count}
again:  li   a7,7               # fork
        ecall
        beqz a0,child
        li   a0,0
        li   a7,8               # wait
        ecall
        addi s0,s0,-1
        bnez s0,again
child:
""" + EXIT + PLACE
# Copies its tape to the file p.
INSTALLS = "_start:" + TOUCH + """
        li   t0,112
""" + OPEN + """
more:   li   a0,0
        addi a1,s2,16
        li   a2,1024
        li   a7,3               # read
        ecall
        beqz a0,done
        mv   a2,a0
        mv   a0,s3
        addi a1,s2,16
        li   a7,2               # write
        ecall
        j    more
done:
""" + EXIT + PLACE
# Reads a byte of its tape, and executes the file p, as long as there is one.
EXECS = """
_start: li   t0,112
        sb   t0,-4(sp)
        li   a0,0
        addi a1,sp,-8
        li   a2,1
        li   a7,3               # read
        ecall
        beqz a0,done
        addi a0,sp,-4
        li   a1,1
        li   a7,14              # exec
        ecall
        li   a0,1
        li   a7,1               # exit
        ecall
done:
""" + EXIT


class Cost:
    """Seconds, those of them in the host's kernel where they are told, and bytes of memory, of one thing."""

    def __init__(self, seconds, memory=None, host=None):
        self.seconds, self.memory, self.host = seconds, memory, host

    def without(self, other, times=1):
        both = self.memory is not None and other.memory is not None
        return Cost(self.seconds - times * other.seconds, self.memory - times * other.memory if both else None)

    def by(self, count):
        return Cost(self.seconds / count, None if self.memory is None else self.memory / count)

    def time(self):
        return Cost(self.seconds)

    def of_host(self):
        return Cost(self.host)


class Measures:
    """The program, with what was made for its runs."""

    def __init__(self, path, room):
        self.bench, self.made = Bench(path, room), {}

    def make(self, key, make):
        if key not in self.made:
            self.made[key] = make()
        return self.made[key]

    def image(self, source, **numbers):
        return self.make((source, *numbers.items()), lambda: self.bench.image(source, **numbers))

    def between(self, few, many, by):
        """What each of so many more things takes, of two runs."""
        one, other = self.bench.time(few, looks=True), self.bench.time(many, looks=True)
        seconds, memory, host = other.processor - one.processor, other.memory - one.memory, other.host - one.host
        return Cost(seconds / by, memory / by, host / by)

    def run(self, source, *options, **numbers):
        return Run(("run", "--workers=1", *options, self.image(source, **numbers)))

    def per(self, source, few, many, **numbers):
        """What each of the things takes that a program does `count` times."""
        runs = [self.run(source, count=it, **numbers) for it in (few, many)]
        return self.between(*runs, many - few)

    def turns(self, image, limit, given):
        """A run of a script with one Turn of at most so many instructions. Its output begins as it is given."""
        return self.make((image, limit), lambda: self.bench.turns([image], limit))._replace(given=given)

    def lines(self, image, lines):
        """What so many lines of a script take, which are read, done and printed."""
        few, many = 10_000, 210_000
        runs = [self.make((image, lines, it), lambda it=it: self.bench.script(f"image 0 {image}\n" + lines * it)) for it in (few, many)]
        return self.between(*runs, many - few).time()

    def instruction(self):
        """The seconds of an instruction of each program in C."""
        images = [self.make(it, lambda it=it: self.bench.repeated(it, MANY + 1_000_000)) for it in LENGTHS]
        turns = [[self.turns(image, it, f"ran {it} limit\n") for it in (FEW, MANY)] for image in images]
        return [self.between(few, many, MANY - FEW).seconds for few, many in turns]


def an_event(m):
    image = m.image(LOOP, count=1_000_000_000)
    yield "a Turn of one instruction by a script: its line is read, done and printed", m.lines(image, "turn 1 1\n")
    image = m.image(CALLS, count=1_000_000_000)
    both = m.lines(image, "turn 1 9\nenter 1\n")
    yield "a Turn and the Enter of a `getpid` by a script, two such lines", both


def a_call(m):
    yield "a call that replies at once, `getpid`", m.per(CALLS, 20_000, 220_000)


def bytes_written(m):
    one, kib = m.per(WRITES, 10_000, 110_000, bytes=1), m.per(WRITES, 1_000, 11_000, bytes=1024)
    yield "a `write` of one byte to a terminal", one
    yield "each further byte of such a `write`", kib.without(one).by(1023)


def bytes_copied(m):
    whats = "each byte that the kernel copies from a program", "each byte of a `write` to a pipe, or of a `read` from it"
    for what, source in zip(whats, (REFUSED, PIPED)):
        one, kib = [m.lines(m.image(source, count=1_000_000_000, bytes=it), "turn 1 99\nenter 1\n") for it in (1, 1024)]
        yield what, kib.without(one).by(1023)


def bytes_piped(m):
    yield "a byte into a pipe and out again, two calls", m.per(PIPED, 5_000, 55_000, bytes=1)


def a_loan(m):
    count, often, seldom = 3_000_000, 1_000, 1_000_000
    loans, costs = LOOP_LENGTH * count / often - LOOP_LENGTH * count / seldom, {}
    for pages in (1, 16, 51):
        runs = [m.run(LOOP, f"--quantum={it}", pages=pages, count=count) for it in (seldom, often)]
        costs[pages] = m.between(*runs, loans)
        yield f"a time slice (loan) of a process with {of_data(pages)}", costs[pages]
    yield "each page of data, for a time slice", costs[51].without(costs[1]).by(50).time()


def a_waiter(m):
    for pages in (1, 51):
        with_seven, alone = [m.per(SLEEPERS, 2_000, 12_000, pages=pages, sleepers=it) for it in (7, 0)]
        yield f"a waiting process with {of_data(pages)}, for each call of another", with_seven.without(alone).by(7)


def a_change(m):
    both = m.per(CHANGES, 2_000, 22_000, call=2, what="s2")
    seeks = m.per(CHANGES, 2_000, 22_000, call=10, what="zero")
    yield "a `write` of one byte to a file, with its share of the commit", both.without(seeks.by(2))


def a_fork(m):
    costs = {}
    for pages in (1, 51):
        costs[pages] = m.per(FORKS, 20, 220, calls=1, pages=pages)
        yield f"`fork`, `exit` and `wait` of a child with {of_data(pages)}", costs[pages]
    yield "of that the host's, which gives memory that is used for the first time", costs[51].of_host()
    late = m.per(FORKS, 20, 220, calls=5_000, pages=1)
    yield "a `fork`, for each reply that the parent had had", late.without(costs[1]).by(5_000)


def an_exec(m):
    disk = f"{m.bench.room}/disk"
    image = m.image(EXECS)
    if "disk" not in m.made:
        m.bench.time(Run(("run", f"--disk={disk}", f"--tape={image}", m.image(INSTALLS, pages=1))))
        m.made["disk"] = True
    tapes = [m.make(("tape", it), lambda it=it: m.bench.file(bytes(it), ".tape")) for it in (500, 10_500)]
    runs = [Run(("run", "--workers=1", f"--disk={disk}", f"--tape={it}", image)) for it in tapes]
    read_too = m.between(*runs, 10_000)
    yield "`exec` of a small program, and a `read` of one byte", read_too


def a_kept_state(m):
    few, many = [LOOP_LENGTH * it for it in LOOPS]
    states = (many - few) / 1024
    for pages in (1, 51):
        images = [m.image(LOOP, pages=pages, count=it) for it in LOOPS]
        kept = m.between(*[Run(("debug", it), "run\n") for it in images], states)
        plain = m.between(*[m.turns(it, ENOUGH, "ran ") for it in images], states)
        yield f"a state that the debugger keeps, of {of_data(pages)}, one page changed", Cost(kept.seconds - plain.seconds, kept.memory)


def a_step(m):
    image = m.image(LOOP, count=1_000_000_000)
    few, many = 100_000, 1_100_000
    yield "each instruction of the debugger's `step N`", m.between(*[Run(("debug", image), f"step {it}\n") for it in (few, many)], many - few).time()


def of_data(pages):
    return f"{pages} page{'s' * (pages > 1)} of data"


COSTS = {
    "event": an_event,
    "call": a_call,
    "write": bytes_written,
    "copy": bytes_copied,
    "pipe": bytes_piped,
    "loan": a_loan,
    "waiter": a_waiter,
    "change": a_change,
    "fork": a_fork,
    "exec": an_exec,
    "kept": a_kept_state,
    "step": a_step,
}


def rounded(number):
    """A number with two digits that count, and three from 1,000 on."""
    if number and abs(number) < 10:
        return f"{number:.2g}"
    digits = len(str(int(abs(number)))) - (3 if abs(number) >= 1000 else 2)
    return f"{round(number, -digits):,.0f}" if digits > 0 else f"{number:.0f}"


def line_of(name, what, times, memories, is_row):
    cost, least, most = map(rounded, (statistics.median(times), min(times), max(times)))
    memory = None if memories[0] is None else rounded(statistics.median(memories))
    if is_row:
        return f"| {what} | {cost} | {least} to {most} | {memory or ''} | `{name}` |"
    return f"{name}: {what}: {cost} ({least} to {most})" + (f", {memory} bytes" if memory else "")


def main():
    words = argparse.ArgumentParser(description=__doc__, formatter_class=argparse.RawDescriptionHelpFormatter)
    words.add_argument("--bench", default=f"{TOP}/crates/bench/out/bench")
    words.add_argument("--rounds", type=int, default=7)
    words.add_argument("--page", action="store_true", help="print rows of a table")
    words.add_argument("names", nargs="*", metavar="NAME", help=", ".join(COSTS))
    given = words.parse_args()
    unknown = [it for it in given.names if it not in COSTS]
    if unknown:
        words.error(f"no cost is named {unknown[0]}: there are {', '.join(COSTS)}")
    if not os.access(given.bench, os.X_OK):
        words.error(f"there is no program at {given.bench}: build it by ./bench, or give --bench")
    units, found = [], {}
    with tempfile.TemporaryDirectory(prefix="bench-costs-") as room:
        m = Measures(given.bench, room)
        for number in range(given.rounds):
            print(f"round {number + 1} of {given.rounds}; load {os.getloadavg()[0]:.1f}", file=sys.stderr, flush=True)
            units.append(m.instruction())
            unit = statistics.geometric_mean(units[-1])
            for name in given.names or COSTS:
                for place, (what, cost) in enumerate(COSTS[name](m)):
                    found.setdefault((name, place, what), []).append((cost.seconds / unit, cost.memory))
    means = [statistics.geometric_mean(it) for it in units]
    apart = [statistics.median(it) / statistics.median(means) for it in zip(*units)]
    print(f"an instruction: 1, of the nine programs {min(apart):.2f} to {max(apart):.2f}; {1e9 * statistics.median(means):.2f} ns here")
    for (name, _, what), rounds in found.items():
        print(line_of(name, what, *zip(*rounds), given.page))


if __name__ == "__main__":
    main()

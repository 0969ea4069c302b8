#!/usr/bin/env python3
"""refused-growths.py [--bench FILE] [--test-runner FILE] [--refuse WHAT] [NAME..]: runs the proved program over every command, and the rows
of `growths.cores`, each run with another growth of memory refused. WHAT may be another call to the host. With names only these rows.

A run has to come out as the one in which nothing is refused, or to end for the refusal: status 5 and `bench: out of memory`, or 6 and
`bench: input or output failed`. What it printed and said is then a beginning, and each file is as before or whole. The last line says how many
runs there were; how many ended for the refusal, how many came out undisturbed, and how many otherwise. Where there are such, each is
told, and the status is 1. `docs/TESTING.md` says why this stands beside the merge gate."""
import argparse
import collections
import concurrent.futures
import hashlib
import os
import re
import shutil
import struct
import subprocess
import sys
import tempfile
import threading

TOP = os.path.realpath(f"{os.path.dirname(os.path.realpath(__file__))}/..")
DATA = f"{TOP}/crates/test_runner/data"
DISK = 2 * 1024 * 1024

# What may be refused: the variable of `refuse.c` with its other variables, the place of its count, and the end that stands for it.
MEMORY = (5, b"bench: out of memory\n")
HOST = (6, b"bench: input or output failed\n")
# The end of `disk put` where the host refuses a write of the disk.
DISK_FAILED = (4, b"bench: disk failed\n")
# The status of `exec` for either.
EXEC_REFUSED = 125
REFUSALS = {
    "growth": ("REFUSE_GROWTH", {}, 0, MEMORY),
    "growths": ("REFUSE_GROWTHS", {}, 0, MEMORY),
    "call": ("REFUSE_CALL", {"REFUSE_REASON": "5"}, 1, HOST),
    "room": ("REFUSE_CALL", {"REFUSE_REASON": "28"}, 1, HOST),
    "closed": ("REFUSE_CALL", {"REFUSE_REASON": "32"}, 1, HOST),
    "interrupted": ("REFUSE_CALL", {"REFUSE_REASON": "4"}, 1, HOST),
    "bytes": ("REFUSE_BYTES", {}, 2, HOST),
    "thread": ("REFUSE_THREAD", {}, 3, MEMORY),
}


def part(number):
    """Returns the file of a part of two of an exploration, with its sum."""
    lines = f"bench explore part 2\nprograms {0:032x} limit 1000000 most-states 1000000 most-calls 10000 part {number} of 2\n"
    lines += f"state {0:032x} 0 1\nstate {number:032x} 1 0\noutcome 1 ends 1:{number} shown - files -\ncomplete\n"
    return f"{lines}sum {hashlib.sha256(lines.encode()).hexdigest()[:32]}\n".encode()


# Files beside the sources and scripts of `crates/test_runner/data`.
FILES = {
    "trace": b"00000002 -\n00000003 -\n00000001 -\n",
    "bad.trace": b"00000002 -\n0003 -\n",
    "tape": b"hello, tape\n" * 3,
    "no-text.s": b"_start: ecall \xff\n",
    "bad.s": b"_start: addi a0,a0,5000\n",
    "short": bytes(100),
    "damaged": bytes(64) + bytes.fromhex("0106000000010166010166") + bytes(DISK - 75),
    "bad.script": b"program 0 00000073\nturn 1 5\nno-line\n",
    "every-line.script": b"image 0 first\ntape 3 0011\n"
    + b"turn 1 100\nenter 1\n" * 3
    + b"cut\ncomplete 65\ncomplete 64\ntrace 1\nturn 1 100\nenter 1\ndrain\ntrace 1\nshown 0\nfiles\ncrash 01\nfiles\ntrace 1\nfail 64\n",
    "space.s": b"_start: ecall\n.data\n.space 4294967295\n",
    "allowed.files": b"files -\n",
    "allowed.outcomes": b"ends 1:0 shown - files -\n",
    "one.part": part(1),
    "other.part": part(2),
    "one.log": b"core   0: 3 0x00010000 (0x00500513) x10 0x00000005\n",
    "other.log": b"core   0: 3 0x00010000 (0x00500513) x10 0x00000006\n",
}
# Links, one of which leads to no file at first.
LINKS = {"to-first": "first.s", "to-out": "out"}
SOURCES = ["first.s", "printer.s", "reader.s", "waiter.s", "three_files.s", "linkers/gnu.elf", "examples/c/wild.image.elf"]
IMAGES = {"first": "first.s", "printer": "printer.s", "reader": "reader.s", "waiter": "waiter.s", "primes": "primes.s", "init": "init.s"}
COMMANDS_OF_DEBUG = b"step 3\nstate\nbreak 00010018\nrun\nrewind 2\nrun\nclear 0\nrun\nstep 1\nrewind 0\nrun\nquit\n"
LONG_DEBUG = b"step 3000\nrewind 1500\nbreak 00010010\nrun\nstate\nrun\nquit\n"



def packets(*texts):
    """Returns packets of gdb's protocol with these texts."""
    return b"".join(b"$%s#%02x" % (text, sum(text) % 256) for text in texts)


def monitor(line):
    """Returns the text of a packet for a command that a person gives."""
    return b"qRcmd," + line.hex().encode()


PACKETS = packets(
    *[b"qSupported", b"QStartNoAckMode", b"qXfer:features:read:target.xml:0,fff", b"qXfer:exec-file:read::0,fff", b"?", b"g", b"m10000,40"],
    *[b"Z0,10014,4", b"c", b"g", b"Z2,7ffffff0,10", b"c", b"s", b"c", b"z0,10014,4", b"z2,7ffffff0,10", b"c"],
    *[monitor(line) for line in (b"calls", b"trace", b"files", b"count", b"until 9")],
    *[b"Z3,7ffffff0,10", b"bc", b"bs", b"P21=0000000000000000", b"Z0,10010,4", b"c", b"bc", b"P21=0300000000000000", b"M10000,1:00", b"D"],
)
PACKETS_OF_A_LONG_RUN = packets(b"QStartNoAckMode", b"c", b"Z0,10014,4", b"bc", b"bc", b"Z2,11000,4", b"bc", monitor(b"calls"), b"k")
PACKETS_THAT_KEEP = packets(b"c", monitor(b"keep"), monitor(b"files"), b"k")
# What gdb prints where the disk is kept, and where it cannot be: the session then goes on.
KEPT, NOT_KEPT = (packets(b"O" + line.hex().encode()) for line in (b"the disk is kept\n", b"the disk cannot be kept in its file\n"))

# A name, the status without a refusal, the words, and the input.
COMMANDS = [
    ("asm", 0, "asm primes.s out", b""),
    ("asm over a file", 0, "asm first.s primes", b""),
    ("asm refused", 2, "asm bad.s out", b""),
    ("asm of a large space", 2, "asm space.s out", b""),
    ("asm of no text", 6, "asm no-text.s primes", b""),
    ("check", 0, "check primes.s", b""),
    ("check refused", 2, "check bad.s", b""),
    ("image", 0, "image linkers/gnu.elf out", b""),
    ("image over a file", 0, "image linkers/gnu.elf primes", b""),
    ("image refused", 2, "image short out", b""),
    ("list", 0, "list primes", b""),
    ("list refused", 2, "list short", b""),
    ("explore", 0, "explore --jobs 1 init", b""),
    ("explore with scripts", 0, "explore --jobs 1 --save . init", b""),
    ("explore expected", 7, "explore --jobs 1 --expect allowed.outcomes init", b""),
    ("explore that is cut", 8, "explore --jobs 1 --most-states 2 init", b""),
    ("explore a part", 0, "explore --jobs 1 --part 1/2 init", b""),
    ("explore merged", 0, "explore --merge one.part other.part", b""),
    ("explore merged as expected", 7, "explore --merge --expect allowed.outcomes one.part other.part", b""),
    ("explore of one part twice", 2, "explore --merge one.part one.part", b""),
    ("explore of no part", 2, "explore --merge bad.s", b""),
    ("diff", 0, "diff one.log one.log", b""),
    ("diff of two logs", 7, "diff one.log other.log", b""),
    ("diff beside a source", 7, "diff --source first.s one.log other.log", b""),
    ("diff refused", 2, "diff bad.s one.log", b""),
    ("replay", 0, "replay first-run.script", b""),
    ("replay with crashes", 0, "replay crash.script", b""),
    ("replay of every line", 0, "replay every-line.script", b""),
    ("replay refused", 2, "replay bad.script", b""),
    ("replay of the input", 0, "", "first-run.script"),
    ("replay of a cone", 0, "replay --cone 8 first-run.script", b""),
    ("replay of no cone", 2, "replay --cone 9 first-run.script", b""),
    ("picture", 0, "picture first-run.script", b""),
    ("picture of a cone", 0, "picture --cone 8 first-run.script", b""),
    ("page", 0, "page first-run.script", b""),
    ("page of crashes", 0, "page --json crash.script", b""),
    ("crashes", 0, "crashes first-run.script", b""),
    ("lists by a rule", 0, "crashes --model posix first-run.script", b""),
    ("crashes with a recovery", 0, "crashes --jobs 1 --nested 0 --recover first.s first-run.script", b""),
    ("crashes by a rule", 0, "crashes --model posix --jobs 1 --recover first.s first-run.script", b""),
    ("crashes of all orders", 0, "crashes --all-orders --jobs 1 --nested 0 --recover first.s init", b""),
    ("crashes of all orders that are cut", 8, "crashes --all-orders --jobs 1 --most-states 2 --recover first.s init", b""),
    ("crashes of all orders by a rule", 0, "crashes --all-orders --model posix --jobs 1 --nested 0 --recover first.s init", b""),
    ("crashes of an order that ends badly", 126, "crashes --all-orders --jobs 1 --nested 0 --recover first.s stuck.s", b""),
    ("a recovery that fails", 7, "crashes --jobs 1 --save . --recover wild.s first-run.script", b""),
    ("a recovery that fails by a rule", 7, "crashes --model posix --jobs 1 --save . --recover wild.s first-run.script", b""),
    ("crashes expected", 7, "crashes --expect allowed.files first-run.script", b""),
    ("debug", 0, "debug first --trace trace", COMMANDS_OF_DEBUG),
    ("debug far", 0, "debug primes", LONG_DEBUG),
    ("debug refused", 2, "debug first --trace bad.trace", b""),
    ("gdb", 0, "gdb --symbols first.elf first", PACKETS),
    ("gdb with a trace", 0, "gdb --trace trace first", PACKETS),
    ("gdb with a tape", 0, "gdb --tape tape reader first", PACKETS),
    ("gdb far", 0, "gdb primes", PACKETS_OF_A_LONG_RUN),
    ("gdb that keeps a disk", 0, "gdb --disk kept printer", PACKETS_THAT_KEEP),
    ("gdb with little room", 0, "gdb --history 1 primes", PACKETS_OF_A_LONG_RUN),
    ("gdb refused", 2, "gdb first short", b""),
    ("disk", 0, "disk kept", b""),
    ("disk of another length", 3, "disk short", b""),
    ("disk damaged", 3, "disk damaged", b""),
    ("disk put", 0, "disk put kept settings first.s", b""),
    ("disk put on a new disk", 0, "disk put new settings first.s", b""),
    ("disk put refused", 2, "disk put kept a/b first.s", b""),
    ("disk cat", 0, "disk cat kept f", b""),
    ("disk diff", 0, "disk diff kept kept", b""),
    ("run", 0, "run first", b""),
    ("run by one", 0, "run --workers 1 first", b""),
    ("run of exec", 0, "run init", b""),
    ("run on a new disk", 0, "run --disk new first", b""),
    ("run on a kept disk", 0, "run --disk kept --workers 2 first printer", b""),
    ("run with a tape", 0, "run --tape tape --quantum 3 reader first waiter", b""),
    ("run to a status", 0, "run --status 1 first", b""),
    ("run that fails", 4, "run --fail 1 first", b""),
    ("run that fails on a disk", 4, "run --fail 2 --disk kept first", b""),
    ("run refused", 2, "run first short", b""),
    ("run on a damaged disk", 3, "run --disk damaged first", b""),
    ("run of eight", 0, "run --workers 16 --disk kept first printer reader waiter first printer reader primes", b""),
    ("faulty number", 1, "run --workers 0 x", b""),
    ("faulty command", 1, "no-command", b""),
    ("faulty words", 1, "run", b""),
    ("one path twice", 1, "asm a a", b""),
    ("too many words", 1, "list a b", b""),
    ("faulty option", 1, "run --worker 3 x", b""),
    ("nine images", 1, "run" + 9 * " a", b""),
    ("help", 0, "--help", b""),
    ("exec", 0, "exec first.s", b""),
    ("exec with a record", 0, "exec --calls --json --record out first.s", b""),
    ("exec with a log", 0, "exec --log out --profile first.s", b""),
    ("exec with a log by a link", 0, "exec --log to-out first.s", b""),
    ("exec over its source by a link", 125, "exec --record to-first first.s", b""),
    ("exec of two things to a file", 125, "exec --log out --picture out first.s", b""),
    ("exec with a picture", 0, "exec --picture out init.s", b""),
    ("exec with its calls", 0, "exec --calls --seed 3 init.s", b""),
    ("exec of a trap in C", 132, "exec --json --calls --profile examples/c/wild.image.elf", b""),
    ("exec of a deadlock", 126, "exec --json --record out stuck.s", b""),
    ("exec to a limit", 124, "exec --limit 10 --log out primes.s", b""),
    ("exec on a kept disk", 0, "exec --disk kept --tape tape --profile first.s reader.s", b""),
    ("exec by workers", 0, "exec --workers 2 first.s printer.s", b""),
    ("exec refused", 125, "exec bad.s", b""),
    ("help of run", 0, "run --help", b""),
    ("help of asm", 0, "help asm", b""),
]

# The most bytes that a growth of a command may ask for.
MOST = {"asm of a large space": 65536}

# In a file of cases only what stands after such a line is swept.
MARK = "# FROM HERE ON"
# How the program `test_runner` says that a growth of its own was refused; what it says where a line of a case comes out otherwise.
OWN = re.compile(rb"memory|OutOfMemory")
OTHERWISE = b"comes to"


def run(program, words, given, folder, variables):
    """Runs a program, and returns its status, what it printed and what it said."""
    environment = {"PATH": "/usr/bin:/bin", **variables}
    try:
        ended = subprocess.run([program, *words], input=given, capture_output=True, cwd=folder, env=environment, timeout=120)
    except subprocess.TimeoutExpired:
        return "no end", b"", b""
    return ended.returncode, ended.stdout, ended.stderr


class Folder:
    """A folder with the files, of which a run's changes are seen and taken back."""

    def __init__(self, files):
        self.files = files
        self.path = tempfile.mkdtemp(prefix="refused-")
        self.stamps = {}
        for name in files:
            self.write(name)
        for name, target in LINKS.items():
            os.symlink(target, f"{self.path}/{name}")

    def write(self, name):
        path = f"{self.path}/{name}"
        os.makedirs(os.path.dirname(path), exist_ok=True)
        with open(path, "wb") as file:
            file.write(self.files[name])
        self.stamps[name] = self.stamp(name)

    def stamp(self, name):
        found = os.stat(f"{self.path}/{name}")
        return found.st_ino, found.st_size, found.st_mtime_ns

    def changes(self):
        """Returns the files that are new or other ones, and the names of those that are gone; puts all back."""
        names = {os.path.relpath(f"{where}/{name}", self.path) for where, _, names in os.walk(self.path) for name in names}
        names -= {name for name in LINKS if os.path.islink(f"{self.path}/{name}")}
        changed = {}
        for name in names:
            if self.stamps.get(name) != self.stamp(name):
                with open(f"{self.path}/{name}", "rb") as file:
                    changed[name] = file.read()
                if name not in self.files:
                    os.unlink(f"{self.path}/{name}")
        gone = self.files.keys() - names
        for name in gone | (changed.keys() & self.files.keys()):
            self.write(name)
        return {name: content for name, content in changed.items() if content != self.files.get(name)}, gone


class Sweep:
    """Runs of one program with a refusal each."""

    def __init__(self, program, library, refusal, files, processes):
        self.program, self.library, self.files = program, library, files
        self.variable, self.others, self.place, self.end = REFUSALS[refusal]
        self.local = threading.local()
        self.folders = []
        self.pool = concurrent.futures.ThreadPoolExecutor(processes)
        self.listed = {}
        self.kinds = collections.Counter()

    def folder(self):
        if not hasattr(self.local, "folder"):
            self.local.folder = Folder(self.files)
            self.folders.append(self.local.folder)
        return self.local.folder

    def once(self, words, given, number):
        """Returns what a run comes to whose refusal has this number, how many refusals there could be, and the greatest growth."""
        folder = self.folder()
        counts = f"{folder.path}.counts"
        variables = {"LD_PRELOAD": self.library, "REFUSE_COUNTS": counts, self.variable: str(number), **self.others}
        came = run(self.program, words, given, folder.path, variables)
        with open(counts, "rb") as file:
            numbers = struct.unpack("5q", file.read())
        return came, folder.changes(), numbers[self.place], numbers[4]

    def list_of(self, content):
        """Returns what a disk holds, since the bytes by which it does may differ from run to run; of another file its bytes."""
        if len(content) != DISK:
            return content
        if content not in self.listed:
            with tempfile.NamedTemporaryFile() as file:
                file.write(content)
                file.flush()
                self.listed[content] = run(self.program, ["disk", file.name], b"", ".", {})
        return self.listed[content]

    def is_same(self, found, wanted, is_run):
        (status, out, err), (changed, gone) = found[:2]
        (status_wanted, out_wanted, err_wanted), (changed_wanted, gone_wanted) = wanted[:2]
        if is_run:
            err, err_wanted = sorted(err.splitlines()), sorted(err_wanted.splitlines())
        if self.end == HOST:
            # The file of a lock stays where it cannot be removed.
            changed = {name: content for name, content in changed.items() if not name.endswith(".lck")}
        return (
            (status, out, err, gone) == (status_wanted, out_wanted, err_wanted, gone_wanted)
            and changed.keys() == changed_wanted.keys()
            and all(self.list_of(changed[name]) == self.list_of(changed_wanted[name]) for name in changed)
        )

    def is_whole(self, content, wanted):
        """Whether a file is as it is wanted; one that `exec` writes may be a beginning of that, since it is opened before the run."""
        if wanted is None:
            return False
        return self.list_of(content) == self.list_of(wanted) or self.is_exec and wanted.startswith(content)

    def is_refused(self, found, wanted, is_run):
        """Whether a run ended for its refusal, with a beginning of the output and with whole files."""
        (status, out, err), (changed, gone) = found[:2]
        (status_wanted, out_wanted, err_wanted), (changed_wanted, _) = wanted[:2]
        status_of_end, line = self.end
        if self.is_exec and status == EXEC_REFUSED:
            status_of_end = EXEC_REFUSED
        if self.is_put and self.end == HOST and status == DISK_FAILED[0]:
            status_of_end, line = DISK_FAILED
        is_told = out != out_wanted and out == out_wanted.replace(KEPT, NOT_KEPT)
        if status not in (status_of_end, status_wanted) or gone or not (is_told or out_wanted.startswith(out)):
            return False
        torn = [name for name in changed if not self.is_whole(changed[name], changed_wanted.get(name))]
        if is_told:
            return status == status_wanted and err == err_wanted and all(self.end == HOST and name.endswith((".new", ".lck")) for name in torn)
        if status == status_wanted != status_of_end:
            # A fault that came first keeps its status, where it cannot be told, or the output cannot go out.
            return self.end == HOST and status != 0 and not torn and set(err.splitlines()) <= set(err_wanted.splitlines())
        if self.end == HOST:
            # A host that fails may cut short what is said, the image of `asm`, and the new file beside a disk.
            return not is_run or all(name.endswith((".new", ".lck")) for name in torn)
        # What was said before is a beginning of what is said without a refusal; threads of a run, and calls told one by one, mix it.
        return not torn and err.endswith(line) and (is_run or self.is_exec or err_wanted.startswith(err[: -len(line)]))

    def kind_of_command(self, found, wanted, is_run):
        if self.is_same(found, wanted, is_run):
            return "undisturbed"
        return "refused" if self.is_refused(found, wanted, is_run) else "wrong"

    def kind_of_row(self, found, wanted, _):
        """The kind of a run of `test_runner`, which itself may want memory: then it ends, and says so."""
        if found[:2] == wanted[:2]:
            return "undisturbed"
        (status, out, err), (changed, gone) = found[:2]
        is_own = status == 1 and out == b"" and OWN.search(err) and OTHERWISE not in err
        return "refused" if is_own and not changed and not gone else "wrong"

    def each(self, name, words, given, status, kind_of, first=1):
        """Runs words once for each refusal, and says what came of it."""
        wanted = self.pool.submit(self.once, words, given, 0).result()
        if wanted[0][0] != status:
            print(f"{name}: status {wanted[0][0]}, where {status} is wanted: {wanted[0][2][-200:]!r}", flush=True)
            self.kinds["wrong"] += 1
            return
        if wanted[3] > MOST.get(name, wanted[3]):
            print(f"{name}: a growth asks for {wanted[3]} bytes", flush=True)
            self.kinds["wrong"] += 1
        # In a run by workers the number of growths differs from run to run.
        is_run = words[:1] == ["run"]
        self.is_exec = words[:1] == ["exec"]
        self.is_put = words[:2] == ["disk", "put"]
        last = wanted[2] + (10 if is_run else 1)
        numbers = range(first, last + 1)
        kinds = collections.Counter()
        for number, found in zip(numbers, self.pool.map(lambda number: self.once(words, given, number), numbers)):
            kind = kind_of(found, wanted, is_run)
            kinds[kind] += 1
            if kind == "wrong":
                (code, out, err), (changed, gone) = found[:2]
                sizes = {file: len(content) for file, content in changed.items()}
                print(f"{name}, {number}: status {code}, out {out[-200:]!r}, err {err[-200:]!r}, files {sizes}, gone {gone}", flush=True)
        print(f"{name}: {len(numbers)} runs, {kinds['refused']} refused, {kinds['undisturbed']} undisturbed", flush=True)
        self.kinds += kinds

    def close(self):
        self.pool.shutdown()
        for folder in self.folders:
            shutil.rmtree(folder.path)
            os.unlink(f"{folder.path}.counts")


def read(path):
    with open(path, "rb") as file:
        return file.read()


def files_of_commands(bench):
    """Returns the files that the commands read: sources, scripts, images, and a disk that a run kept."""
    files = dict(FILES)
    for name in SOURCES:
        files[name] = read(f"{DATA}/{name}")
    for name in sorted(os.listdir(f"{DATA}/examples")):
        if os.path.isfile(f"{DATA}/examples/{name}"):
            files[name] = read(f"{DATA}/examples/{name}")
    with tempfile.TemporaryDirectory() as folder:
        for name, content in files.items():
            os.makedirs(os.path.dirname(f"{folder}/{name}"), exist_ok=True)
            with open(f"{folder}/{name}", "wb") as file:
                file.write(content)
        made = [["asm", source, image] for image, source in IMAGES.items()] + [["run", "--disk", "kept", "first"]]
        for words in made:
            status, _, err = run(bench, words, b"", folder, {})
            if status != 0:
                sys.exit(f"bench {' '.join(words)}: status {status}: {err.decode()}")
        for name in [*IMAGES, "kept"]:
            files[name] = read(f"{folder}/{name}")
    return files


def sweep_commands(bench, library, refusal, names, processes):
    files = files_of_commands(bench)
    sweep = Sweep(bench, library, refusal, files, processes)
    for name, status, words, given in COMMANDS:
        if not names or name in names:
            given = files[given] if isinstance(given, str) else given
            sweep.each(name, words.split(), given, status, sweep.kind_of_command)
    sweep.close()
    return sweep.kinds


def rows_of(text):
    """Returns the cases of a file, each as the text of a file of its own, with what comes before its mark, if it has one."""
    head, *cases = text.split("\n== ")
    return [(case.splitlines()[0], f"{head}\n== {case}", f"{head}\n== {case.split(MARK)[0]}" if MARK in case else None) for case in cases]


def sweep_rows(test_runner, library, names, processes):
    files = {}
    for where, _, found in os.walk(DATA):
        for name in found:
            if name.endswith(".s"):
                path = f"{where}/{name}"
                files[os.path.relpath(path, DATA)] = read(path)
    rows = rows_of(read(f"{DATA}/growths.cores").decode())
    for place, (_, whole, before) in enumerate(rows):
        files[f"{place}.cores"] = whole.encode()
        if before is not None:
            files[f"{place}.before.cores"] = before.encode()
    sweep = Sweep(test_runner, library, "growth", files, processes)
    for place, (title, _, before) in enumerate(rows):
        if not names or title in names:
            first = 1
            if before is not None:
                # What is printed at the end also takes memory: so the sweep begins a little earlier.
                first = max(1, sweep.pool.submit(sweep.once, [f"{place}.before.cores"], b"", 0).result()[2] - 20)
            sweep.each(title, [f"{place}.cores"], b"", 0, sweep.kind_of_row, first)
    if not names or "growths" in names:
        sweep.each("growths", ["growths"], b"", 0, sweep.kind_of_row)
    sweep.close()
    return sweep.kinds


def main():
    parser = argparse.ArgumentParser(description=__doc__, formatter_class=argparse.RawDescriptionHelpFormatter)
    parser.add_argument("--bench", help="the proved program; without it no command is run")
    parser.add_argument("--test-runner", help="the proved program `test_runner`; without it no row is run")
    parser.add_argument("--refuse", choices=REFUSALS, default="growth", help="what is refused: one growth, all from one on, a call of the host, one for want of room, of a reader, or interrupted, all bytes but one, or a thread")
    parser.add_argument("--processes", type=int, default=os.cpu_count())
    parser.add_argument("names", nargs="*", help="the commands and rows that are run; all without them")
    given = parser.parse_args()
    kinds = collections.Counter()
    with tempfile.TemporaryDirectory() as folder:
        library = f"{folder}/refuse.so"
        subprocess.run(["cc", "-O1", "-shared", "-fPIC", "-o", library, f"{TOP}/tools/refuse.c", "-ldl"], check=True)
        if given.test_runner and given.refuse == "growth":
            kinds += sweep_rows(os.path.abspath(given.test_runner), library, given.names, given.processes)
        if given.bench:
            kinds += sweep_commands(os.path.abspath(given.bench), library, given.refuse, given.names, given.processes)
    runs = kinds["refused"] + kinds["undisturbed"] + kinds["wrong"]
    print(f"{runs} runs: {kinds['refused']} refused, {kinds['undisturbed']} undisturbed, {kinds['wrong']} wrong")
    sys.exit(1 if kinds["wrong"] else 0)


if __name__ == "__main__":
    main()

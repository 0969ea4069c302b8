"""Proves the crates of a program, and builds it.

`rt ci` proves them, in a copy that has no must-fail edits. That of some kits keeps each crate that it has proved beside the toolchain,
for this user of this machine. Then the merge gate takes what was proved here, and the other way round, and a run that is interrupted
loses only the crates that were just being proved. That of others keeps nothing, which is said at the beginning.

BENCH_JOBS says how many processors are used: all of them if it is not set, or fewer if memory is short."""
import fcntl
import os
import queue
import re
import shutil
import signal
import subprocess
import sys
import tempfile
import threading
import time

from command_words import first_commands
from crate_copies import TOP, copy_crates
from lanes import lanes
from programs import SMALL, said_by

INTERRUPTS = (signal.SIGINT, signal.SIGTERM, signal.SIGHUP)
PROVED = re.compile(r"rt: (\w+) proved")
# The folder, beside the toolchain's, in which `rt` keeps what is proved.
STORE = "rattle-kept"
KEPT = re.compile(r"rt: (\w+) is kept: ")
REFUSED = re.compile(r"rt: (\w+) NOT PROVED")
NOTE = re.compile(r"rt: (note: .*)")
# How long nothing is said, in seconds.
SILENCE = 60
# How many lines of a run are shown where it failed.
SHOWN_LINES = 20
# With how much left a disk counts as full, in bytes.
FULL = 1_000_000_000
GIGABYTE = 1_000_000_000


def tell(what):
    print(f"bench: {what}", file=sys.stderr, flush=True)


class Failed(Exception):
    """Why the program could not be built, the lines of the log that say more, and a line for each disk that is full."""

    def __init__(self, why, log=(), full=()):
        super().__init__(why)
        self.log, self.full = [*log][-SHOWN_LINES:], full


def jobs():
    """Returns how many processors the proofs may use; nothing if nobody says so."""
    asked = os.environ.get("BENCH_JOBS", "")
    if asked and not (asked.isdigit() and int(asked) >= 1):
        raise Failed(f"BENCH_JOBS is a number from 1 on, and no {asked}")
    return asked


def parts(program):
    """Gives the crates of each run of `rt ci`, and its words of the environment. With RT_JOBS each proof has one processor. The last crates
    come one after another, so a run of their own gives each of them all processors; it finds what the first one proved where that is kept."""
    if asked := jobs():
        yield program.crates, {"RT_JOBS": asked}
    elif is_kept():
        yield program.first_crates, {"RT_JOBS": str(lanes())}
        yield program.crates, {}
    else:
        yield program.crates, {"RT_JOBS": str(lanes())}


def store():
    """Returns the folder beside the toolchain in which `rt` keeps what is proved, where it keeps anything."""
    return f"{os.path.dirname(os.path.dirname(said_by('rt', 'doc')))}/{STORE}"


def keeps():
    """Returns whether `rt` is of a kit that keeps what is proved: then it names the folder in which it does."""
    rt = os.path.realpath(shutil.which("rt"))
    for it in (rt, f"{os.path.dirname(rt)}/rtlib.py"):
        if os.path.isfile(it):
            with open(it, encoding="utf-8", errors="replace") as file:
                if STORE in file.read():
                    return True
    return False


def is_writable(store):
    return os.access(store if os.path.isdir(store) else os.path.dirname(store), os.W_OK)


def is_kept():
    """Returns whether a later run finds what this one proves."""
    return keeps() and is_writable(store())


def what_is_kept():
    """Says what a later run finds of this one."""
    if not keeps():
        return "NOTHING IS KEPT of a run that does not come to its end, since the rt of this kit keeps nothing"
    return "what is proved is kept" if is_writable(store()) else f"NOTHING IS KEPT, since {store()} cannot be written"


def room_wanted(program, folder):
    """Returns how many bytes the copy may take of the disk of this folder: half as many if the store is there, whose files it shares."""
    at = store()
    is_shared = os.path.isdir(at) and os.stat(at).st_dev == os.stat(folder).st_dev
    return program.gigabytes * GIGABYTE // (2 if is_shared else 1)


def test_room(program):
    """Refuses to begin if the disk of the copy is too small."""
    at = tempfile.gettempdir()
    free, wanted = shutil.disk_usage(at).free, room_wanted(program, at)
    if free < wanted:
        raise Failed(f"{at} has {free // 1_000_000} MB left, and the proofs want {wanted // 1_000_000}; TMPDIR may name another folder")


def full_disks():
    """Returns a line for each disk of this work that is full."""
    places = [it for it in (tempfile.gettempdir(), store(), TOP) if os.path.isdir(it)]
    left = {os.stat(it).st_dev: (it, shutil.disk_usage(it).free) for it in places}
    return [f"the disk is full: {it} has {free // 1_000_000} MB left" for it, free in left.values() if free < FULL]


def lines_of(run):
    """Gives each line that a run prints as it comes, and None where none has come for a while."""
    waiting = queue.Queue()

    def read():
        for line in run.stdout:
            waiting.put(line)
        waiting.put("")

    threading.Thread(target=read, daemon=True).start()
    while True:
        try:
            line = waiting.get(timeout=SILENCE)
        except queue.Empty:
            line = None
        if line == "":
            return
        yield line


class Build:
    """Runs of `rt ci` in copies: the crates that they proved, and what was said of the last one."""

    def __init__(self, program, room):
        self.program, self.room, self.temporary = program, room, f"{room}/tmp"
        self.began, self.proved, self.said = time.monotonic(), set(), []

    def minutes(self):
        return int(time.monotonic() - self.began) // 60

    def say(self, what):
        tell(f"{what}; {len(self.proved)} of {len(self.program.crates)} crates are proved, {self.minutes()} minutes gone")

    def hear(self, line):
        """Tells what a line of the run means; a crate that is refused ends the build."""
        if line.startswith("== "):
            # What is said of a crate begins here.
            self.said.clear()
        self.said.append(line)
        proved, kept, refused, note = PROVED.match(line), KEPT.match(line), REFUSED.match(line), NOTE.match(line)
        if proved or kept:
            self.proved.add((proved or kept)[1])
        if proved:
            self.say(f"proved {proved[1]}")
        elif note:
            tell(note[1])
        elif refused:
            raise Failed(f"{refused[1]} is not proved", self.said)

    def run(self):
        """Proves all crates, and returns where the program then is."""
        # As root, rt runs the program as nobody, who has to come through these folders.
        os.chmod(self.room, 0o711)
        os.mkdir(self.temporary, 0o711)
        copy = ""
        for number, (names, words) in enumerate(parts(self.program)):
            copy = f"{self.room}/{number}"
            copy_crates(names, copy)
            self.prove(copy, words)
        return f"{copy}/crates/{self.program.crate}/out/{self.program.crate}"

    def prove(self, copy, words):
        """Proves the crates of a copy."""
        run = subprocess.Popen(
            ["rt", "ci"], cwd=copy, env={**os.environ, **words, "TMPDIR": self.temporary}, stdin=subprocess.DEVNULL, stdout=subprocess.PIPE,
            stderr=subprocess.STDOUT, text=True, errors="replace", start_new_session=True,
        )
        try:
            for line in lines_of(run):
                if line is None:
                    self.say("still proving")
                else:
                    self.hear(line)
            if run.wait() != 0:
                raise Failed("rt ci did not pass", self.said)
        finally:
            # All that it has started ends with it.
            run.terminate()
            run.wait()


def warn_of_the_kit():
    """Says so where bench was not proved with a kit of this logic."""
    with open(f"{TOP}/KIT", encoding="utf-8") as file:
        kits = [it.strip() for it in file if not it.startswith("#")]
    kit = said_by("rt", "version")
    if not any(kit.endswith(it.partition(" ")[2]) for it in kits):
        tell(f"the kit here is {kit}; bench was proved with {', '.join(kits)}")


def begin(program):
    """Says what is proved, what that takes, and what else there is."""
    if program is SMALL:
        tell(f"the small program has {', '.join(first_commands())}; ./bench --build proves the whole one, which has all commands")
    takes = f"from nothing that takes about {program.proofs}, and {program.gigabytes} GB of disk"
    tell(f"proving {program.called}, {len(program.crates)} crates; {takes}")
    tell("on a host that others use too it takes up to twice as long")
    tell(f"./bench --unproved WORDS.. runs without proofs, after a compilation of {program.compilation}")
    tell(what_is_kept())


def prove(program):
    """Builds the program, while no other run of this works in the repository."""
    jobs()
    warn_of_the_kit()
    with open(f"{TOP}/crates.txt", encoding="utf-8") as lock:
        try:
            fcntl.flock(lock, fcntl.LOCK_EX | fcntl.LOCK_NB)
        except BlockingIOError:
            tell("waiting for another build in this folder")
            fcntl.flock(lock, fcntl.LOCK_EX)
            if program.is_fresh(True):
                return
        test_room(program)
        begin(program)
        begun = program.begin()
        with tempfile.TemporaryDirectory(prefix="bench-build-") as room:
            try:
                run = Build(program, room)
                program.take(True, run.run(), begun)
                tell(f"{program.called} is proved and built, in {run.minutes()} minutes")
            except (Failed, OSError) as why:
                # (a disk that the copy has filled has room again, once it is removed)
                raise Failed(why, getattr(why, "log", ()), full_disks()) from None


def interrupt(*_):
    # A second one would cut off what the first one tidies up.
    for it in INTERRUPTS:
        signal.signal(it, signal.SIG_IGN)
    raise KeyboardInterrupt


def build(program):
    """Proves and builds a program; returns 0, or the exit status at which that ended."""
    if not shutil.which("rt"):
        tell(f"{program.called} has to be built first, and the toolchain's command rt, which builds it, is not on the path")
        return 1
    for it in INTERRUPTS:
        if signal.getsignal(it) != signal.SIG_IGN:
            signal.signal(it, interrupt)
    try:
        prove(program)
        return 0
    except KeyboardInterrupt:
        tell(f"interrupted; {what_is_kept()}")
        return 130
    except (Failed, OSError) as why:
        print(*getattr(why, "log", ()), sep="", end="", file=sys.stderr)
        for line in [f"{program.called} could not be built: {why}", *getattr(why, "full", ()), what_is_kept()]:
            tell(line)
        return 1

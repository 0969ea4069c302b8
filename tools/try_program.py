"""Compiles a program without any proof.

`rt try` compiles a program and runs it once in a folder of its own, and keeps nothing. So it runs here with a script that never comes,
from a pipe that nobody writes to; meanwhile the program's file is copied. From then on the launcher runs it as it runs a proved one."""
import os
import shutil
import signal
import subprocess
import sys
import tempfile
import time

from crate_copies import TOP

# How often it is looked whether the program runs, and how long nothing is said, in seconds.
LOOKS, SILENCE = 0.2, 30
# The longest that the compilation may take, in seconds.
LONGEST = 1800


def tell(what):
    print(f"bench: {what}", file=sys.stderr, flush=True)


def running(words):
    """Returns the file of the program that runs with these words, if one does. Before it stand the words of the loader that runs it."""
    for number in filter(str.isdigit, os.listdir("/proc")):
        try:
            with open(f"/proc/{number}/cmdline", encoding="utf-8", errors="surrogateescape") as it:
                found = it.read().split("\0")[:-1]
        except OSError:
            continue
        if found[-len(words) :] == words and "--" not in found:
            return found[-len(words) - 1]
    return None


def compiled(program, room):
    """Returns the file of the program as `rt try` compiles it; `room` has a pipe that it waits for."""
    os.mkfifo(f"{room}/wait")
    os.mkdir(f"{room}/tmp")
    words = ["replay", f"{room}/wait"]
    with open(f"{room}/said", "wb") as out:
        run = subprocess.Popen(
            ["rt", "try", "--seconds", str(LONGEST), "--", *words], cwd=f"{TOP}/crates/{program.crate}",
            env={**os.environ, "TMPDIR": f"{room}/tmp"}, stdin=subprocess.DEVNULL, stdout=out, stderr=subprocess.STDOUT,
            start_new_session=True,
        )
    began = said = time.monotonic()
    try:
        while run.poll() is None:
            if found := running(words):
                shutil.copyfile(found, f"{room}/program")
                return f"{room}/program"
            time.sleep(LOOKS)
            if time.monotonic() - said >= SILENCE:
                said = time.monotonic()
                tell(f"compiling; {int(said - began)} seconds gone")
        with open(f"{room}/said", encoding="utf-8", errors="replace") as out:
            raise OSError("\n".join(["rt try did not compile it:", *out.read().splitlines()[-20:]]))
    finally:
        # All that it has started ends with it.
        run.terminate()
        run.wait()


def interrupt(*_):
    raise KeyboardInterrupt


def compile_unproved(program):
    """Compiles a program; returns 0, or the exit status at which that ended."""
    if not shutil.which("rt"):
        tell("the toolchain's command rt is not on the path")
        return 1
    for it in (signal.SIGTERM, signal.SIGHUP):
        signal.signal(it, interrupt)
    begun = program.begin()
    try:
        with tempfile.TemporaryDirectory(prefix="bench-unproved-") as room:
            program.take(False, compiled(program, room), begun)
        return 0
    except KeyboardInterrupt:
        tell("interrupted")
        return 130
    except OSError as why:
        tell(f"{program.called} could not be compiled: {why}")
        return 1

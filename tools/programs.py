"""The two programs of bench: the crate of each, what it takes to build it, and what of it is built.

A program is in the folder `out` of its crate: proved under the crate's name, and compiled without proofs as `unproved`. A file in the
same folder, as old as the start of its build, says of what it was built: a line with the commit and the kit, and the lines of crates.txt
that it was built by. The program is fresh as long as these lines are the same and no file that its crates are proved from is newer; so an
edit in a crate that only the whole program uses leaves the small one fresh."""
import os
import shutil
import subprocess
import time
from typing import NamedTuple

from crate_copies import PROVED_FROM, TOP, crates_below, lines_of_crates


def said_by(*words):
    """Returns what a command prints; nothing if it is not there."""
    if not shutil.which(words[0]):
        return ""
    said = subprocess.run(words, stdin=subprocess.DEVNULL, stdout=subprocess.PIPE, stderr=subprocess.DEVNULL, text=True, check=False)
    return said.stdout.strip()


def commit():
    """Returns the commit of the sources; nothing if this is no clone."""
    return said_by("git", "-C", TOP, "describe", "--always", "--dirty") if os.path.exists(f"{TOP}/.git") else ""


def origin():
    """Returns the commit of the sources and the kit, as `./bench --version` says them."""
    return f"{'at commit ' + commit() if commit() else 'from no commit'}, with {said_by('rt', 'version')}"


class Begun(NamedTuple):
    """When a build began, and of what. What is edited since is newer."""

    start: float
    text: str


class Program(NamedTuple):
    """A program: its crate, what it is called, how long its proofs and its compilation take, what the proofs take of a disk, and the crate
    from which on they come one after another."""

    crate: str
    called: str
    proofs: str
    compilation: str
    gigabytes: int
    last: str

    @property
    def crates(self):
        return crates_below([self.crate])

    @property
    def first_crates(self):
        """Returns the crates that do not stand on the last ones."""
        return [it for it in self.crates if self.last not in crates_below([it])]

    def lines(self):
        """Returns the lines of crates.txt that the program is built by."""
        lines = lines_of_crates()[0]
        return "".join(f"{' '.join(lines[it].partition('#')[0].split())}\n" for it in sorted(self.crates))

    def file(self, is_proved):
        return f"{TOP}/crates/{self.crate}/out/{self.crate if is_proved else 'unproved'}"

    def is_fresh(self, is_proved):
        """Returns whether the program is built, and as its sources are."""
        start, _, lines = self.built(is_proved)
        return start is not None and lines == self.lines() and not any(is_newer(crate, start) for crate in self.crates)

    def built(self, is_proved):
        """Returns when the build of the program began, its commit and kit, and its lines of crates.txt; Nones if it is not built."""
        file = self.file(is_proved)
        try:
            with open(f"{file}.built", encoding="utf-8") as built:
                start, (said, _, lines) = os.fstat(built.fileno()).st_mtime_ns, built.read().partition("\n")
        except OSError:
            return None, None, None
        return (start, said, lines) if os.access(file, os.X_OK) else (None, None, None)

    def take(self, is_proved, made, begun):
        """Puts what a build made where the launcher looks for it, with what it was built of by its `begun`."""
        file = self.file(is_proved)
        os.makedirs(os.path.dirname(file), exist_ok=True)
        shutil.copyfile(made, f"{file}.new")
        os.chmod(f"{file}.new", 0o755)
        os.replace(f"{file}.new", file)
        with open(f"{file}.built", "w", encoding="utf-8") as built:
            built.write(begun.text)
        os.utime(f"{file}.built", (begun.start, begun.start))

    def begin(self):
        """Returns what a build is begun with: the commit, the kit, and the lines of crates.txt now."""
        return Begun(time.time(), f"{origin()}\n{self.lines()}")


def is_newer(crate, start):
    """Returns whether a file or a folder that a crate is proved from is newer than this."""
    folders = [f"{TOP}/crates/{crate}/{part}" for part in PROVED_FROM]
    folders = [it for it in folders if os.path.isdir(it)]
    while folders:
        folder = folders.pop()
        if os.stat(folder).st_mtime_ns > start:
            return True
        with os.scandir(folder) as found:
            for it in found:
                if it.is_dir():
                    folders.append(it.path)
                elif not it.name.startswith(".#") and it.stat(follow_symlinks=False).st_mtime_ns > start:
                    return True
    return False


WHOLE = Program("bench", "the whole program", "50 minutes on four processors, 90 on two", "four to six minutes", 6, "crash_recoveries")
SMALL = Program("bench_small", "the small program", "25 minutes on four processors, 35 on two", "one to two minutes", 3, "kernel_step")

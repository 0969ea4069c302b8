"""What costs.py and worker-costs.py share: programs of bench, and runs of it that are timed."""
import os
import shlex
import struct
import subprocess
import sys
import time
from typing import NamedTuple

TOP = os.path.realpath(f"{os.path.dirname(os.path.realpath(__file__))}/..")
# Programs in C, with how many instructions each runs.
IMAGES = f"{TOP}/crates/test_runner/data/c"
LENGTHS = {
    "bits": 1_738_117, "graph": 5_038_161, "hash": 6_892_682, "interp": 7_112_009, "matrix": 7_350_174, "parse": 2_855_047,
    "recurse": 1_232_026, "sort": 20_281_841, "strings": 1_954_918,
}
# How often a run's memory is looked at, in seconds.
LOOK = 0.002

# Parts of sources in assembly. Numbers in braces are given where the source is assembled; s0 counts down.
EXIT = """
        li   a0,0
        li   a7,1               # exit
        ecall
"""
# Writes to each of some pages of data; s2 is where they begin.
TOUCH = """
        la   s2,place
        mv   s3,s2
        li   s4,{pages}
        li   t1,4096
touch:  sw   s4,16(s3)
        add  s3,s3,t1
        addi s4,s4,-1
        bnez s4,touch
"""
PLACE = """
        .data
place:  .space {room}
"""
AGAIN = """
        addi s0,s0,-1
        bnez s0,again
"""
PIPE = """
        mv   a0,s2
        li   a7,6               # pipe
        ecall
"""
# A loop of six instructions, which stores and loads.
LOOP = "_start:" + TOUCH + """
        li   s0,{count}
again:  addi t0,t0,1
        sw   t0,-4(sp)
        lw   t1,-4(sp)
        add  t2,t2,t1
""" + AGAIN + EXIT + PLACE
LOOP_LENGTH = 6
CALLING = """
        li   s0,{count}
again:  li   a7,9               # getpid
        ecall
""" + AGAIN
CALLS = "_start:" + CALLING + EXIT
# A child waits at the pipe.
CHILD = """
child:  lw   a0,4(s2)
        li   a7,5               # close
        ecall
        lw   a0,0(s2)
        addi a1,s2,8
        li   a2,1
        li   a7,3               # read
        ecall
"""
# Makes processes that wait at an empty pipe, and then calls. They end when it has ended.
SLEEPERS = "_start:" + TOUCH + PIPE + """
        li   s0,{sleepers}
        beqz s0,calls
more:   li   a7,7               # fork
        ecall
        beqz a0,child
        addi s0,s0,-1
        bnez s0,more
calls:
""" + CALLING + EXIT + CHILD + EXIT + PLACE
# Makes as many processes as there may be. All wait at a pipe until the last is there. Then each calls once for each of its pages, and
# writes to it.
HERD = "_start:" + TOUCH + PIPE + """
more:   li   a7,7               # fork
        ecall
        beqz a0,child
        bgtz a0,more
        lw   a0,4(s2)
        li   a7,5               # close
        ecall
each:   addi a0,s2,12
        li   a7,8               # wait
        ecall
        bgtz a0,each
""" + EXIT + CHILD + """
        mv   s3,s2
        li   s4,{pages}
mark:   li   a7,9               # getpid
        ecall
        sw   a0,20(s3)
        li   t1,4096
        add  s3,s3,t1
        addi s4,s4,-1
        bnez s4,mark
""" + EXIT + PLACE


# `li a7,1` and `ecall`, by which a program in C ends.
END = struct.pack("<2I", 0x00100893, 0x73)


def jump_of(word):
    """How far a word `jal ra,..` jumps."""
    far = (word >> 21 & 0x3FF) << 1 | (word >> 20 & 1) << 11 | (word >> 12 & 0xFF) << 12 | (word >> 31) << 20
    return far - (far >> 20 << 21)


def jump_word(far):
    """The word `jal ra,..` that jumps so far."""
    return (far >> 20 & 1) << 31 | (far >> 1 & 0x3FF) << 21 | (far >> 11 & 1) << 20 | (far >> 12 & 0xFF) << 12 | 0xEF


class Used(NamedTuple):
    """What a run took: seconds from its beginning to its end, seconds of processors, those of them in the host's kernel, and, where it
    was looked for, bytes of memory."""

    wall: float
    processor: float
    host: float
    memory: int


class Run(NamedTuple):
    """A run of bench: its words, and what it reads. `given` is how its output has to begin."""

    words: tuple
    text: str = ""
    given: str = ""


def peak_of(pid):
    """The most memory that a process has had so far, in bytes; 0 where it has none any more."""
    try:
        with open(f"/proc/{pid}/status", encoding="ascii", errors="replace") as file:
            for line in file:
                if line.startswith("VmHWM:"):
                    return int(line.split()[1]) * 1024
    except OSError:
        pass
    return 0


class Started:
    """A run that has begun."""

    def __init__(self, bench, run, room):
        self.bench, self.run = bench, run
        self.said = open(f"{room}/said.{id(self)}", "w+b")
        self.printed = open(f"{room}/printed.{id(self)}", "w+b")
        given = open(f"{room}/given.{id(self)}", "w+b")
        given.write(run.text.encode())
        given.seek(0)
        self.began = time.monotonic()
        self.process = subprocess.Popen([bench, *run.words], stdin=given, stdout=self.printed, stderr=self.said)
        given.close()

    def end(self, looks):
        """Waits for the end, and returns what the run took. A run that fails ends the script."""
        pid, peak, done = self.process.pid, 0, 0
        while looks and not done:
            peak = max(peak, peak_of(pid))
            time.sleep(LOOK)
            done, status, used = os.wait4(pid, os.WNOHANG)
        if not done:
            _, status, used = os.wait4(pid, 0)
        wall = time.monotonic() - self.began
        self.process.returncode = os.waitstatus_to_exitcode(status)
        texts = []
        for file in (self.printed, self.said):
            file.seek(0)
            texts.append(file.read(65536).decode(errors="replace"))
            file.close()
            os.unlink(file.name)
        printed, said = texts
        has_ended = self.run.words[0] != "run" or all(it.endswith(" ended 0") for it in said.splitlines())
        if self.process.returncode or not has_ended or not printed.startswith(self.run.given):
            words = shlex.join([self.bench, *self.run.words])
            sys.exit(f"{words}: status {self.process.returncode}, printed {printed[:200]!r}, said {said[-300:]!r}")
        return Used(wall, used.ru_utime + used.ru_stime, used.ru_stime, peak)


class Bench:
    """A program bench, and a folder for what it reads and writes."""

    def __init__(self, path, room):
        self.path, self.room, self.names = os.path.realpath(path), room, 0

    def time(self, *runs, looks=False):
        """Runs the program once for each of these, all at the same time. Returns what they took: the longest time, the sums of the rest."""
        started = [Started(self.path, it, self.room) for it in runs]
        ended = [it.end(looks) for it in started]
        sums = [sum(numbers) for numbers in zip(*(it[1:] for it in ended))]
        return Used(max(it.wall for it in ended), *sums)

    def file(self, content, suffix):
        self.names += 1
        path = f"{self.room}/{self.names}{suffix}"
        with open(path, "wb") as file:
            file.write(content)
        return path

    def image(self, source, pages=1, **numbers):
        """Assembles a source with these numbers, and returns the image's path."""
        path = self.file(source.format(pages=pages, room=4096 * pages, **numbers).encode(), ".s")
        self.time(Run(("asm", path, f"{path}.image")))
        return f"{path}.image"

    def script(self, text):
        """A run of a script."""
        return Run(("replay", self.file(text.encode(), ".script")))

    def turns(self, images, limit):
        """A run of a script, in which each of these images has one Turn of at most so many instructions."""
        lines = [f"image {place} {it}\n" for place, it in enumerate(images)]
        lines += [f"turn {place + 1} {limit}\n" for place in range(len(images))]
        return self.script("".join(lines))

    def repeated(self, name, least):
        """An image of a program in C that goes over its work again and again, for at least so many instructions."""
        times = -(-least // LENGTHS[name])
        with open(f"{IMAGES}/{name}.image", "rb") as file:
            content = file.read()
        offset, start, _, size = struct.unpack_from("<4I", content, 52 + 4)
        # The program begins with a jump to `main`, after which it ends. What is put after its text does the same again and again.
        first, after = struct.unpack_from("<I", content, offset)[0], -(-size // 4) * 4
        end = offset + after
        if first & 0xFFF != 0xEF or content[offset + 4 : offset + 12] != END or any(content[end : end + 28]) or times > 2047:
            sys.exit(f"{name}.image does not begin as the programs in C do, or has no room after its text")
        more = struct.pack("<5I", times << 20 | 0x413, jump_word(jump_of(first) - after - 4), 0xFFF40413, 0xFE041CE3, 0x513) + END
        changed = bytearray(content[:end].ljust(end, b"\0") + more + content[end + 28 :])
        struct.pack_into("<I", changed, 24, start + after)
        struct.pack_into("<2I", changed, 52 + 16, after + 28, after + 28)
        return self.file(bytes(changed), f".{name}.image")

"""A format of tests for LLVM's lit: a program in C, which is built for bench, and has to end with status 0.

FLAGS has flags of the compiler, as `-O2 -w`, to which a source adds those of lines as `{ dg-options "-std=gnu89" }`. BENCH and BUILD name
the program and the script that builds; by themselves they are those of the package."""
import os
import re
import shlex

import lit.formats
import lit.Test
import lit.util

BENCH = os.environ.get("BENCH", "bench")
BUILD = os.environ.get("BUILD", "/usr/share/bench/build.sh")
FLAGS = shlex.split(os.environ.get("FLAGS", "-O2"))
OF_SOURCE = re.compile(r'\{ *dg-(?:additional-)?options +"([^"]*)"')
SECONDS = 60


def flags_of(path):
    with open(path, encoding="utf-8", errors="replace") as source:
        return [*FLAGS, *shlex.split(" ".join(OF_SOURCE.findall(source.read())))]


class Program(lit.formats.FileBasedTest):
    """A program that is built and run."""

    def execute(self, test, lit_config):
        image = test.getExecPath() + ".image"
        os.makedirs(os.path.dirname(image), exist_ok=True)
        for command in (
            [BUILD, "--picolibc", *flags_of(test.getSourcePath()), "-g", test.getSourcePath(), "-lm", image],
            [BENCH, "exec", f"{image}.elf"],
        ):
            # lit ends a program only where Python has psutil.
            out, err, status = lit.util.executeCommand(["timeout", str(SECONDS), *command])
            if status == 124:
                return lit.Test.TIMEOUT, f"{shlex.join(command)}: no end in {SECONDS} seconds"
            if status:
                return lit.Test.FAIL, f"{shlex.join(command)}: status {status}\n{out}{err}"
        return lit.Test.PASS, ""

#!/usr/bin/env python3
"""Tries packages in a fresh root, in which there is no toolchain: the lessons of docs/TEACHING.md have to come out to the letter.

    try-package.py [FOLDER]

FOLDER, out/package if it is not given, has what tools/package.sh made. A root of Debian is made by debootstrap, from MIRROR, which takes
a minute and 300 MB; ROOT names one that is there already. The lessons are the cases of teaching.sessions. They are run twice: by the
package that is installed, and by the tarball, in a folder of its own. It has to be run by root."""
import glob
import os
import shlex
import shutil
import subprocess
import sys
import tempfile

TOP = os.path.realpath(f"{os.path.dirname(os.path.realpath(__file__))}/..")
LESSONS = f"{TOP}/crates/test_runner/data/teaching.sessions"
MIRROR = os.environ.get("MIRROR", "http://deb.debian.org/debian")
# Where the lessons are tried, in the root.
DESK = "/root/lessons"


class Failed(Exception):
    """What came out otherwise."""


def runs_and_files(path):
    """Reads a file of sessions: each file with its lines, and each use of the program with what is wanted of it, None where anything will
    do. Other forms are refused."""
    steps = []
    with open(path, encoding="utf-8") as file:
        for line in file.read().split("\n"):
            mark, _, text = line.partition(" ")
            if not line or mark in ("#", "=="):
                continue
            if mark == "$":
                steps.append({"words": shlex.split(text), "input": [], "out": [], "err": [], "status": 0})
            elif mark == "file":
                steps.append({"file": text, "lines": []})
            elif mark == "|":
                steps[-1]["lines"].append(text)
            elif mark == "<":
                steps[-1]["input"].append(text)
            elif mark == ">" and steps[-1]["out"] is not None:
                steps[-1]["out"].append(text)
            elif mark == ">*":
                steps[-1]["out"] = None
            elif mark == "!":
                status, _, said = text.partition(" ")
                steps[-1].update(status=int(status), err=[said] if said else None)
            elif mark == "!!":
                steps[-1]["err"].append(text)
            else:
                raise Failed(f"{path}: {line} has a form that is not read here")
    return steps


def in_root(root, words, text=""):
    return subprocess.run(["chroot", root, *words], input=text, capture_output=True, text=True, check=False)


def lines_of(text):
    return text.removesuffix("\n").split("\n") if text else []


def try_run(root, program, step):
    text = "".join(f"{line}\n" for line in step["input"])
    command = f"cd {DESK} && exec {program} {shlex.join(step['words'])}"
    ran = in_root(root, ["sh", "-c", command], text)
    for what, came, wanted in (("prints", ran.stdout, step["out"]), ("says", ran.stderr, step["err"])):
        if wanted is None and not came or wanted is not None and lines_of(came) != wanted:
            raise Failed(f"{program} {shlex.join(step['words'])} {what}\n{came}\nwanted is\n{wanted}")
    if ran.returncode != step["status"]:
        raise Failed(f"{program} {shlex.join(step['words'])} ends with status {ran.returncode}, and not {step['status']}")


def try_lessons(root, program, examples):
    """Runs the lessons in a new folder, with the examples where the pages have them."""
    shutil.rmtree(f"{root}{DESK}", ignore_errors=True)
    shutil.copytree(f"{root}{examples}", f"{root}{DESK}/examples")
    steps = runs_and_files(LESSONS)
    for step in steps:
        if "file" in step:
            with open(f"{root}{DESK}/{step['file']}", "w", encoding="utf-8") as file:
                file.write("".join(f"{line}\n" for line in step["lines"]))
        else:
            try_run(root, program, step)
    return sum("words" in step for step in steps)


def must(root, words, wanted):
    ran = in_root(root, words)
    if ran.returncode or wanted not in ran.stdout:
        raise Failed(f"{shlex.join(words)}: status {ran.returncode}\n{ran.stdout}{ran.stderr}")


def made_root(room):
    if "ROOT" in os.environ:
        return os.environ["ROOT"]
    root = f"{room}/root"
    made = subprocess.run(["debootstrap", "--variant=minbase", "bookworm", root, MIRROR], capture_output=True, text=True, check=False)
    if made.returncode:
        raise Failed(f"debootstrap: {made.stdout[-500:]}{made.stderr}")
    return root


def only(pattern):
    found = glob.glob(pattern)
    if len(found) != 1:
        raise Failed(f"{pattern}: {len(found)} files")
    return found[0]


def try_all(folder, room):
    deb, tarball = only(f"{folder}/bench_*_amd64.deb"), only(f"{folder}/bench-*-linux-amd64.tar.gz")
    root = made_root(room)
    shutil.copy(deb, f"{root}/tmp/bench.deb")
    must(root, ["dpkg", "-i", "/tmp/bench.deb"], "Setting up bench")
    must(root, ["bench", "--version"], "bench ")
    must(root, ["bash", "-c", ". /usr/share/bash-completion/completions/bench && complete -p bench"], "_bench")
    must(root, ["sh", "-c", "gzip -dc /usr/share/man/man1/bench.1.gz"], ".TH BENCH 1")
    print(f"installed: {try_lessons(root, 'bench', '/usr/share/bench/examples')} uses in the lessons", flush=True)
    must(root, ["dpkg", "-r", "bench"], "Removing bench")
    subprocess.run(["tar", "-xzf", tarball, "-C", f"{root}/opt"], check=True)
    place = "/opt/" + os.path.basename(tarball).removesuffix(".tar.gz")
    print(f"unpacked: {try_lessons(root, f'{place}/bench', f'{place}/share/bench/examples')} uses in the lessons", flush=True)


def main(words):
    folder = words[0] if words else f"{TOP}/out/package"
    with tempfile.TemporaryDirectory(prefix="try-package-") as room:
        try:
            try_all(os.path.abspath(folder), room)
        except Failed as failed:
            sys.exit(f"try-package: {failed}")


if __name__ == "__main__":
    main(sys.argv[1:])

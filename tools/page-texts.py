#!/usr/bin/env python3
"""Makes `texts.rt` of the crate `run_page` from the files in its folder `page/`: the frame, the style and the script of a page.

    page-texts.py [--check]

With --check nothing is written, and status 1 says that the file is not of these texts. The language has no way to take in a file, so
the texts stand in the code as literals. The page's Content-Security-Policy names the style and the script by their SHA-256 digests, so
that a browser runs nothing else."""
import base64
import hashlib
import os
import sys

sys.dont_write_bytecode = True

from crate_copies import TOP

FOLDER = f"{TOP}/crates/run_page/page"
TEXTS = f"{TOP}/crates/run_page/src/texts.rt"
MOST_LINES = 700
HEAD = """//! The texts of a page, between which its title and its data stand. `tools/page-texts.py` makes this file of those in `page/`.

"""


def read(name):
    with open(f"{FOLDER}/{name}", encoding="utf-8") as file:
        return file.read()


def digest(text):
    return "sha256-" + base64.b64encode(hashlib.sha256(text.encode()).digest()).decode()


def literal(text):
    return '"' + text.replace("\\", "\\\\").replace('"', '\\"').replace("\n", "\\n") + '"'


def texts():
    """Returns the code with the frame in three parts, its style and its script in their places."""
    style, script = "\n" + read("page.css"), "\n" + read("page.js")
    for name, text in (("page.css", style), ("page.js", script)):
        if "</" in text:
            sys.exit(f"{name}: `</` would end its element")
    if script.count("\n") > MOST_LINES + 1:
        sys.exit(f"page.js: more than {MOST_LINES} lines")
    frame = read("page.html")
    for mark, text in (("@SCRIPT-DIGEST@", digest(script)), ("@STYLE-DIGEST@", digest(style)), ("@STYLE@", style), ("@SCRIPT@", script)):
        if frame.count(mark) != 1:
            sys.exit(f"page.html: {mark} does not stand there once")
        frame = frame.replace(mark, text)
    start, rest = frame.split("@TITLE@")
    middle, end = rest.split("@DATA@")
    parts = (("START", start), ("MIDDLE", middle), ("END", end))
    return HEAD + "\n".join(f"pub const {name}: &str =\n    {literal(text)};\n" for name, text in parts)


def main(words):
    made = texts()
    if words == ["--check"]:
        with open(TEXTS, encoding="utf-8") as file:
            if file.read() != made:
                sys.exit("crates/run_page/src/texts.rt: not of the files in page/; run tools/page-texts.py")
        return
    if words:
        sys.exit(__doc__)
    with open(TEXTS, "w", encoding="utf-8") as file:
        file.write(made)


if __name__ == "__main__":
    main(sys.argv[1:])

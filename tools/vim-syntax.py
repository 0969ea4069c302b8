#!/usr/bin/env python3
"""Makes `examples/ci/bench.vim`, which tells Vim the assembler's words, from the tables of the crate `source_checks`.

    vim-syntax.py [--check]

With --check nothing is written, and status 1 says that the file has other words. A test of `library_tests` assembles each word of the
tables."""
import os
import re
import sys

TOP = os.path.realpath(f"{os.path.dirname(os.path.realpath(__file__))}/..")
SYNTAX = f"{TOP}/examples/ci/bench.vim"
WIDEST = 120
HEAD = """" The words of bench's assembler, for Vim. tools/vim-syntax.py prints them from the assembler's tables.
if exists("b:current_syntax")
  finish
endif
syntax iskeyword @,48-57,_,.
"""
# No word is one in a comment or in a string.
TAIL = """syntax region benchString oneline start=/"/ skip=/\\\\./ end=/"/
syntax match benchComment /#.*/
highlight default link benchInstruction Statement
highlight default link benchDirective PreProc
highlight default link benchRegister Identifier
highlight default link benchString String
highlight default link benchComment Comment
let b:current_syntax = "bench"
"""


def table(name, constant):
    """Returns the text of a table of the crate, without its comments."""
    with open(f"{TOP}/crates/source_checks/src/{name}.rt", encoding="utf-8") as file:
        return re.search(rf"pub static {constant}: .*? = \[\n(.*?)\n\];", file.read(), re.DOTALL)[1]


def keywords(group, words):
    """Returns the lines of a group of words, each word once."""
    line = start = f"syntax keyword {group}"
    for word in dict.fromkeys(words):
        if len(f"{line} {word}") > WIDEST:
            yield line
            line = start
        line += f" {word}"
    yield line


def syntax():
    statements = [name for names in re.findall(r'\(\s*"([^"]*)",', table("forms", "FORMS")) for name in names.split()]
    registers = re.findall(r'"(\w+)"', table("registers", "REGISTERS"))
    lines = [
        *keywords("benchInstruction", (name for name in statements if not name.startswith("."))),
        *keywords("benchDirective", (name for name in statements if name.startswith("."))),
        *keywords("benchRegister", registers),
    ]
    return HEAD + "".join(f"{line}\n" for line in lines) + TAIL


def main(words):
    made = syntax()
    if words == ["--check"]:
        with open(SYNTAX, encoding="utf-8") as file:
            if file.read() != made:
                sys.exit("examples/ci/bench.vim: not of the assembler's tables; run tools/vim-syntax.py")
        return
    if words:
        sys.exit(__doc__)
    with open(SYNTAX, "w", encoding="utf-8") as file:
        file.write(made)


if __name__ == "__main__":
    main(sys.argv[1:])

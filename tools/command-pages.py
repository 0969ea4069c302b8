#!/usr/bin/env python3
"""Prints what a system has of a command beside the program: its man page, how a shell completes its words, or a page's table of options.

    command-pages.py man|bash|zsh
    command-pages.py table COMMAND
    command-pages.py tables      writes each table of docs/*.md anew that follows a line <!-- options of COMMAND -->

All are made of what `bench --help` and `bench COMMAND --help` print, as tools/command_words.py reads it; no build is needed. The man
page is dated by SOURCE_DATE_EPOCH, if that is set. The table also says what an option needs and excludes, by the command's rules
in crates/command_line/src/table.rt."""
import glob
import os
import re
import sys
import time

sys.dont_write_bytecode = True

from command_words import TOP, Row, helps

COMMANDS = f"{TOP}/crates/command_line/src/table.rt"
RULE = re.compile(r"^  (.*) \[(needs|cannot be used with|cannot be used without)\] ([^,\n]*)(.*)$", re.MULTILINE)
TABLE = re.compile(r"^(<!-- options of (\w+) -->\n)((?:\|.*\n)*)", re.MULTILINE)
MANY = {"IMAGE": "more than one image", "PROGRAM": "more than one program"}
# What each exit status says, in short; docs/SCRIPTS.md has all.
STATUSES = (
    ("0", "Done."),
    ("1", "The command line is faulty."),
    ("2", "A script, a source, an image, an executable, a trace or a file of expected outcomes is refused, or there is no such event or process."),
    ("3", "A file is no disk."),
    ("4", "A write of the disk has failed."),
    ("5", "Out of memory."),
    ("6", "Input or output failed."),
    ("7", "A crash leaves files that are not expected."),
    ("other", "With --status P, that of process P."),
)
SHORT = "run RISC-V programs on a kernel whose output waits for the disk"
DESCRIPTION = (
    "bench runs programs for RISC-V (RV32IM) on a kernel of its own with a simulated disk. A program never waits for the disk. What it writes "
    "to a terminal is held back until every change of a file on which it depends is on the disk. A script says event by event what runs.",
    "Without a command, the script on standard input is replayed.",
)


def roff(text):
    text = text.replace("\\", "\\e").replace("-", "\\-").replace("'", "\\(aq")
    return "\\&" + text if text[:1] in (".", "'") else text


def sentence(text):
    return text[:1].upper() + text[1:] + ("" if text[-1:] in ".:" else ".")


def man_rows(rows):
    lines = []
    for row in rows:
        lines += [".TP", f".B {roff(row.form)}", roff(sentence(row.about))]
    return lines


def man_command(name, it):
    lines = [f".SS {name}", *(f".B {roff(use)}\n.br" for use in it.usage), ".PP", roff(sentence(it.about))]
    own = [row for row in it.rows.get("Options", ()) if row.name not in ("--explain", "--help")]
    lines += man_rows(it.rows.get("Arguments", [])) + man_rows(own)
    return lines + ([".PP", "Example:", f".B {roff(it.example)}"] if it.example else [])


def man(program, commands):
    version = open(f"{TOP}/VERSION", encoding="ascii").read().strip()
    date = time.strftime("%Y-%m-%d", time.gmtime(int(os.environ.get("SOURCE_DATE_EPOCH", "0")))) if "SOURCE_DATE_EPOCH" in os.environ else ""
    lines = [f'.TH BENCH 1 "{date}" "bench {version}" "bench"', ".SH NAME", f"bench \\- {roff(SHORT)}", ".SH SYNOPSIS"]
    lines += [f".B {roff(use)}\n.br" for use in program.usage] + [".SH DESCRIPTION", roff(DESCRIPTION[0]), ".PP", roff(DESCRIPTION[1]), ".SH COMMANDS"]
    for name, it in commands.items():
        lines += man_command(name, it)
    lines += [".SH OPTIONS", "Each command has these too.", *man_rows(program.rows["Options"]), ".SH EXIT STATUS"]
    lines += man_rows(Row("", status, says) for status, says in STATUSES)
    lines += [".SH FILES", "In share/bench stand examples, and what builds programs in C; in share/doc/bench the documents and what was proved.",
              ".SH SEE ALSO", ".BR gdb (1),", ".BR qemu\\-user (1)"]
    return "\n".join(lines) + "\n"


def words_of(rows):
    return " ".join(row.name for row in rows if row.name.startswith("--"))


def bash(program, commands):
    cases = "\n".join(f"        {name}) options='{words_of(it.rows['Options'])}' ;;" for name, it in commands.items())
    return f"""# Completes the words of bench.
_bench() {{
    local current=${{COMP_WORDS[COMP_CWORD]}} command= options= word
    for word in "${{COMP_WORDS[@]:1:COMP_CWORD-1}}"; do
        case $word in
            -*) ;;
            *) command=$word; break ;;
        esac
    done
    case $command in
        '') COMPREPLY=($(compgen -W '{' '.join(commands)} help {words_of(program.rows["Options"])}' -- "$current")); return ;;
        help) COMPREPLY=($(compgen -W '{' '.join(commands)}' -- "$current")); return ;;
{cases}
    esac
    case $current in
        -*) COMPREPLY=($(compgen -W "$options" -- "$current")) ;;
        *) compopt -o filenames 2>/dev/null; COMPREPLY=($(compgen -f -- "$current")) ;;
    esac
}}
complete -F _bench bench
"""


def zsh_text(text):
    return text.replace("'", "").replace("[", "(").replace("]", ")").replace(":", ",")


def zsh_option(row):
    value = f":{zsh_text(row.value)}:_files" if row.value else ""
    return f"'{row.name}[{zsh_text(row.about)}]{value}'"


def zsh(program, commands):
    described = "\n".join(f"        '{name}:{zsh_text(it.about)}'" for name, it in commands.items())
    cases = "\n".join(
        f"        {name}) _arguments {' '.join(zsh_option(row) for row in it.rows['Options'])} '*:file:_files' ;;" for name, it in commands.items()
    )
    return f"""#compdef bench
# Completes the words of bench.
_bench() {{
    local -a commands
    commands=(
{described}
    )
    if (( CURRENT == 2 )); then
        _describe command commands
        _arguments {' '.join(zsh_option(row) for row in program.rows['Options'])}
        return
    fi
    local command=$words[2]
    shift words
    (( CURRENT-- ))
    case $command in
{cases}
        *) _files ;;
    esac
}}
_bench "$@"
"""


def bounds_of(command):
    """Returns, by its name, the other options that each option of a command needs, and those that it is not used with."""
    with open(COMMANDS, encoding="utf-8") as file:
        row = re.search(rf'(?:# |"){command}: (.*?)(?=\n# |";)', file.read(), re.DOTALL)[1]
    needs, excludes = {}, {}
    for ones, words, others, more in RULE.findall(row):
        for first in ones.split(" "):
            for second in others.split(" "):
                if words == "cannot be used with":
                    excludes.setdefault(first, []).append(second)
                    excludes.setdefault(second, []).append(first)
                else:
                    needs.setdefault(first, []).append((second, more))
    return needs, excludes


def table(command, it):
    """Returns a page's table of the options of a command."""
    own = [row for row in it.rows["Options"] if row.name not in ("--explain", "--help")]
    forms = {row.name: f"`{row.form}`" for row in own} | MANY
    needs, excludes = bounds_of(command)
    lines = ["| Option | Default | Says | Needs, excludes |", "|---|---|---|---|"]
    for row in own:
        name, (says, _, default) = row.name, row.about.partition(" [default: ")
        told = [f"needs {forms[other]}{more}" for other, more in needs.get(name, ())]
        if name in excludes:
            told.append(f"not with {', '.join(forms[other] for other in excludes[name])}")
        lines.append(f"| {forms[name]} | {default.removesuffix(']')} | {says} | {'; '.join(told)} |")
    return "\n".join(lines) + "\n"


def tables_of(text):
    """Yields each table of options in a page: its first line, its command, and its lines as they are and as they are to be."""
    for it in TABLE.finditer(text):
        yield text.count("\n", 0, it.start(3)) + 1, it[2], it[3].splitlines(), table(it[2], helps()[1][it[2]]).splitlines()


def write_tables():
    for path in glob.glob(f"{TOP}/docs/*.md"):
        with open(path, encoding="utf-8") as file:
            text = file.read()
        new = TABLE.sub(lambda it: it[1] + table(it[2], helps()[1][it[2]]), text)
        if new != text:
            with open(path, "w", encoding="utf-8") as file:
                file.write(new)


def main(words):
    makers = {"man": man, "bash": bash, "zsh": zsh}
    program, commands = helps()
    if len(words) == 1 and words[0] in makers:
        sys.stdout.write(makers[words[0]](program, commands))
    elif len(words) == 2 and words[0] == "table" and words[1] in commands:
        sys.stdout.write(table(words[1], commands[words[1]]))
    elif words == ["tables"]:
        write_tables()
    else:
        sys.exit(__doc__)


if __name__ == "__main__":
    main(sys.argv[1:])

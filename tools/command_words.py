"""The commands of bench and their words, as `bench --help` and `bench COMMAND --help` print them, and what bench says of words that ask
for nothing.

The texts of help stand in help.sessions, whose cases the merge gate compares with the program. The launcher, the man page and the
completions read them here, so nothing else lists commands or options. `answer` words a refusal as the program's library for command
lines does; tools/try-launcher.py compares it with the cases of refusals and with a program."""
import os
import re
from typing import NamedTuple

TOP = os.path.realpath(f"{os.path.dirname(os.path.realpath(__file__))}/..")
CASES = f"{TOP}/crates/test_runner/data/help.sessions"
# Where the small program refuses the commands that it lacks.
SMALL = f"{TOP}/crates/first_commands/src/performing.rt"
LACKING = re.compile(r'lacking\(rt\.alloc\(\), "(\w+)"\)')
ROW = re.compile(r"  +(?:(-\w), +)?(\S+(?: <[^>]*>)?(?:\.\.\.)?)  +(.*)")
# The statuses of a refused command line: of `exec`, whose programs have statuses of their own, and of all other commands.
OF_EXEC, REFUSED = 125, 1
# The most programs that a command takes.
MOST = 8
# How alike a name has to be to be offered in place of a word.
ALIKE = 0.7


class Row(NamedTuple):
    """An argument or an option: its letter, if it has one, how it is written, and what it is."""

    letter: str
    form: str
    about: str

    @property
    def name(self):
        return self.form.split(" ")[0]

    @property
    def value(self):
        return re.sub(r"^\S+ ?", "", self.form).strip("<>. ")


class Help(NamedTuple):
    """What a help says, and its whole text."""

    about: str
    usage: list
    rows: dict
    example: str
    text: str

    @property
    def options(self):
        return {row.name: row for row in self.rows["Options"]}

    @property
    def letters(self):
        return {row.letter: row for row in self.rows["Options"] if row.letter}

    @property
    def places(self):
        return self.rows.get("Arguments", [])

    def alike(self, option):
        """Returns the options that are like one that there is not, the likest one last."""
        return [f"--{it}" for it in alike(option[2:], [name[2:] for name in self.options])]


def help_of(lines):
    """Reads a help: its first line, its usage, and the rows of each of its parts."""
    usage, rows, part, example = [], {}, None, ""
    for line in lines[1:]:
        if line.startswith("Usage: "):
            part, usage = "Usage", [line.removeprefix("Usage: ")]
        elif line.startswith("Example: "):
            example = line.removeprefix("Example: ")
        elif re.fullmatch(r"[A-Z][a-z]+:", line):
            part = line[:-1]
            rows[part] = []
        elif part == "Usage" and line.strip():
            usage.append(line.strip())
        elif ROW.fullmatch(line):
            rows[part].append(Row(*(it or "" for it in ROW.fullmatch(line).groups())))
    return Help(lines[0], usage, rows, example, "\n".join(lines) + "\n")


def cases_of_help():
    """Returns, by its words, what each case of help prints."""
    cases, words = {}, None
    with open(CASES, encoding="utf-8") as file:
        for line in file.read().split("\n"):
            if line.startswith("$ "):
                words = line[2:]
                cases[words] = []
            elif line.startswith(">") and words is not None:
                cases[words].append(line[1:].removeprefix(" "))
    return cases


def helps():
    """Returns the program's help, and by name those of its commands."""
    cases = cases_of_help()
    program = help_of(cases["--help"])
    return program, {row.name: help_of(cases[f"{row.name} --help"]) for row in program.rows["Commands"] if row.name != "help"}


def first_commands():
    """Returns the names of the commands that the small program has."""
    with open(SMALL, encoding="utf-8") as file:
        lacking = LACKING.findall(file.read())
    return [it for it in helps()[1] if it not in lacking]


def likeness(one, other):
    """Returns how alike two words are, from 0 to 1, by Jaro's measure."""
    reach, taken, kept = max(max(len(one), len(other)) // 2 - 1, 0), set(), []
    for at, letter in enumerate(one):
        for there in range(max(at - reach, 0), min(at + reach + 1, len(other))):
            if there not in taken and other[there] == letter:
                taken.add(there)
                kept.append(letter)
                break
    if not kept:
        return float(one == other)
    swapped = sum(a != other[b] for a, b in zip(kept, sorted(taken))) // 2
    return (len(kept) / len(one) + len(kept) / len(other) + (len(kept) - swapped) / len(kept)) / 3


def alike(word, names):
    """Returns the names that are like a word, the likest one last."""
    return [name for score, _, name in sorted((likeness(word, name), at, name) for at, name in enumerate(names)) if score > ALIKE]


class Said(NamedTuple):
    """What bench prints in place of doing something, and its exit status."""

    text: str
    status: int


class Refused(Exception):
    """Why words ask for nothing: the message, and the usage that it ends with. `help` has no help of its own to point to."""

    def __init__(self, message, usage, has_help=True):
        more = "\nFor more information, try '--help'.\n" if has_help else ""
        super().__init__(f"error: {message}\n\nUsage: {usage}\n{more}")


class Unknown(Exception):
    """Only the program says what is wrong with the words, if anything is."""


class Level:
    """The program, or one of its commands, and the words for it that were read."""

    def __init__(self, name, said, commands):
        self.name, self.help, self.commands, self.given, self.files = name, said, commands, [], []

    def usage(self, used=(), is_short=False):
        """Returns the usage that a message ends with: by the options used in place of all, unless the command has a usage by hand."""
        if not (used or is_short) or len(self.help.usage) > 1:
            return "\n       ".join(self.help.usage)
        return " ".join([f"bench {self.name}", *dict.fromkeys(used), *(row.form for row in self.help.places)])

    def unknown(self, option, rest=None):
        """Refuses an option that there is not: with the commands that have it, with the one that may be meant, or before a command with
        that of a command among the rest."""
        names = [] if rest is None else self.help.alike(option)
        having = [name for name, it in self.commands.items() if option in it.options]
        of_rest = [(it, self.commands[it].alike(option)) for it in rest or () if it in self.commands]
        of_rest = [f"{it} {found[-1]}" for it, found in of_rest if found]
        tip = ""
        if having and self.name:
            tip = f"\n\n  tip: '{option}' is an option of {', '.join(having)}"
        elif names:
            tip = f"\n\n  tip: a similar argument exists: '{names[-1]}'"
        elif of_rest and not self.name:
            tip = f"\n\n  tip: '{of_rest[0]}' exists"
        raise Refused(f"unexpected argument '{option}' found{tip}", self.usage())

    def read_option(self, words):
        """Reads an option and its value; returns help or the version, if it asks for that."""
        word = words.pop(0)
        name, equals, value = word.partition("=")
        if not word.startswith("--"):
            name, equals = word[:2], ""
        row = self.help.options.get(name) or self.help.letters.get(name)
        if not row:
            self.unknown(name, list(words) if word.startswith("--") else None)
        if equals and not row.value or row.form in self.given:
            raise Unknown
        if row.name == "--help":
            return Said(self.help.text, 0)
        if row.name == "--version":
            with open(f"{TOP}/VERSION", encoding="utf-8") as file:
                return Said(f"bench {file.read().strip()}\n", 0)
        if len(word) > 2 and not word.startswith("--"):
            raise Unknown
        self.given.append(row.form)
        if row.value and not equals:
            if not words or words[0].startswith("-") and words[0] != "-":
                self.lack_value(row, words)
            words.pop(0)
        return None

    def lack_value(self, row, words):
        """Refuses an option without its value, unless an option that there is not comes first."""
        if words and words[0] != "--":
            name = words[0].partition("=")[0] if words[0].startswith("--") else words[0][:2]
            if name not in self.help.options and name not in self.help.letters:
                self.given.pop()
                self.unknown(name, words[1:] if name.startswith("--") else None)
        raise Refused(f"a value is required for '{row.form}' but none was supplied", self.usage())

    def read_file(self, word):
        """Reads a word that has its meaning by its place."""
        many = bool(self.help.places) and self.help.places[-1].form.endswith("...")
        if many and len(self.files) >= MOST:
            raise Unknown
        if not many and len(self.files) >= len(self.help.places):
            raise Refused(f"unexpected argument '{word}' found", self.usage())
        self.files.append(word)

    def read(self, words):
        """Reads the words of a command; returns this level, or help, if they ask for it."""
        is_ended = False
        while words:
            if is_ended or words[0] == "-" or not words[0].startswith("-"):
                self.read_file(words.pop(0))
            elif words[0] == "--":
                is_ended = bool(words.pop(0))
            elif said := self.read_option(words):
                return said
        missing = [row.form for row in self.help.places[len(self.files) :]]
        if missing:
            lines = "".join(f"\n  {it}" for it in missing)
            raise Refused(f"the following required arguments were not provided:{lines}", self.usage(self.given, True))
        return self


def read_words(words):
    """Reads the words of a command line: returns help if they ask for it, and the level of their command if they ask for a task."""
    program, commands = helps()
    level = Level("", program, commands)
    while words and words[0].startswith("-") and words[0] != "-":
        if words[0] == "--":
            raise Unknown
        if said := level.read_option(words):
            return said
    if not words:
        names = ", ".join([*commands, "help"])
        raise Refused(f"'bench' requires a subcommand but one was not provided\n  [subcommands: {names}]", level.usage())
    name = words.pop(0)
    if name == "help":
        if words and words[0] in (*commands, "help"):
            level = Level(words[0], commands.get(words[0]) or help_of(cases_of_help()["help help"]), commands)
        rest = words[1:] if level.name else words
        if rest:
            raise Refused(f"unrecognized subcommand '{rest[0]}'", level.usage(), level.name != "help")
        return Said(level.help.text, 0)
    if name not in commands:
        names = alike(name, [*commands, "help"])
        tip = f"\n\n  tip: {'a similar subcommand exists' if len(names) == 1 else 'some similar subcommands exist'}: " if names else ""
        raise Refused(f"unrecognized subcommand '{name}'{tip}{', '.join(map(repr, names))}", level.usage())
    return Level(name, commands[name], commands).read(words)


def command_in(words):
    """Returns the name of the command among the words; nothing, if none is there."""
    return next((it for it in words if not it.startswith("-")), "")


def read(words):
    """Returns what bench says without doing anything: help, or that the words ask for nothing; or the level of the command that they ask
    for. None if only the program can tell."""
    try:
        return read_words(list(words)) if words else None
    except Refused as why:
        return Said(str(why), OF_EXEC if command_in(words) == "exec" else REFUSED)
    except Unknown:
        return None


def answer(words):
    """Returns what bench says without doing anything, or None."""
    said = read(words)
    return said if isinstance(said, Said) else None


def is_bare(words):
    """Returns whether a refusal of what the words ask for is a bare line, which says why only with --explain."""
    level = read(words)
    if not isinstance(level, Level) or "--live" in level.given:
        return False
    return level.name in ("replay", "run", "asm", "list", "debug") or level.name == "disk" and len(level.files) == 1


def missing_file(words):
    """Returns the first file that a command reads, if it is not there. The words of `disk` have no fixed places."""
    level = read(words)
    if not isinstance(level, Level) or level.name == "disk" or level.files[0] == "-" or os.path.exists(level.files[0]):
        return None
    return level.files[0]
